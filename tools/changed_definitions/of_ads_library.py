"""Changes of the definitions of `ads_library`, of one clause each: those of the laws of the library's programs.

By file of `specs/`: what is changed, the text that stands there once, and what stands there instead. Further pairs of texts, as of an import,
belong to the same change.
"""
import programs_of_ads_library
import trees_of_ads_library

LEMMAS, CODE = {}, {}

LAWS = {
    "MoreFuel": [
        ("IsWithMore: no more fuel is left", "r ≡ Gives a (k + j) w", "r ≡ Gives a k w"),
        ("IsWithMore: a trap loses its fuel", "r ≡ Ends (Traps trap) (k + j) w", "r ≡ Ends (Traps trap) k w"),
        ("IsWithMore: a rejection loses its fuel", "r ≡ Ends (Rejects cause) (k + j) w", "r ≡ Ends (Rejects cause) k w"),
        (
            "IsWithMore: out of fuel with more too",
            "IsWithMore j (Ends IsOut k w) r = Unit {0}",
            "IsWithMore j (Ends IsOut k w) r = r ≡ Ends IsOut (k + j) w",
        ),
    ],
    "Calls": [
        ("GivesOnly: never out of fuel", "(outcome (ideal P f args k) ≡ Out)", "(outcome (ideal P f args k) ≡ Done v)"),
        ("GivesWith: with one unit less", "ℕ, ◌≤◌}", "ℕ, suc, ◌≤◌}", "enough ≤ k →", "enough ≤ suc k →"),
    ],
    "Entries": [
        ("IsInt: any number", "IsInt z = int_fits z ≡ true", "IsInt z = int_fits z ≡ int_fits z"),
        ("HasInts: the value alone", "HasInts e = IsInt e.key × IsInt e.value", "HasInts e = IsInt e.value × IsInt e.value"),
        ("AllHaveInts: the newest alone", "AllHaveInts (e ∷ es) = HasInts e × AllHaveInts es", "AllHaveInts (e ∷ es) = HasInts e × HasInts e"),
        (
            "lookup: the last entry of a key",
            "if int_eq key e.key then Some e.value else lookup es key",
            "if is_some (lookup es key) then lookup es key else (if int_eq key e.key then Some e.value else None)",
            "Option, Some, None, if",
            "Option, Some, None, is_some, if",
        ),
        ("lookup: the key in place of the value", "then Some e.value else lookup es key", "then Some e.key else lookup es key"),
        ("lookup: the value of another key", "then Some e.value else lookup es key", "then lookup es key else Some e.value"),
        ("Above: at least", "(a <ℤ e.key) × Above a es", "(a ≤ℤ e.key) × Above a es", "◌<ℤ◌,", "◌<ℤ◌, ◌≤ℤ◌,"),
        ("Above: the first alone", "(a <ℤ e.key) × Above a es", "(a <ℤ e.key) × (a <ℤ e.key)"),
        ("Ascending: the first alone", "Above e.key es × Ascending es", "Above e.key es × Above e.key es"),
        ("Ascending: the later ones alone", "Above e.key es × Ascending es", "Ascending es × Ascending es"),
    ],
    "Maps": [
        ("argument_of: value, then key", "PairV (IntV e.key) (IntV e.value)", "PairV (IntV e.value) (IntV e.key)"),
        ("answer: missing is found", "answer None = ConV 0 NoV", "answer None = ConV 1 NoV"),
        ("answer: found is missing", "answer (Some value) = ConV 1", "answer (Some value) = ConV 0"),
        ("IsAfter: the reply is the state", "≡ Done (PairV state reply))", "≡ Done (PairV reply state))"),
        ("IsAfter: each put on any state", "(k : ℕ) × IsAfter earlier before\n", "(k : ℕ)\n"),
        (
            "last_value: the first put",
            "last_value puts key = lookup puts key",
            "last_value puts key = lookup (reverse puts) key",
            "length, codes",
            "length, reverse, codes",
        ),
        (
            "distinct_keys: each put counts",
            "    if is_some (last_value earlier newest.key) then distinct_keys earlier else suc (distinct_keys earlier)",
            "    suc (distinct_keys earlier)",
        ),
        (
            "distinct_keys: a key that was put before counts",
            "then distinct_keys earlier else suc (distinct_keys earlier)",
            "then suc (distinct_keys earlier) else distinct_keys earlier",
        ),
        ("distinct_keys: of no put 1", "distinct_keys [] = 0", "distinct_keys [] = 1"),
        ("IsMapOf: one entry more", "length entries ≡ distinct_keys puts", "length entries ≡ suc (distinct_keys puts)"),
        (
            "GivesAfter: fuel for a key less",
            "args v (fuel (distinct_keys puts)))",
            "args v (fuel (distinct_keys puts - 1)))",
            "ℕ, suc,",
            "ℕ, suc, ◌-◌,",
        ),
    ],
}

CHANGES = {**LAWS, **trees_of_ads_library.CHANGES, **programs_of_ads_library.CHANGES}
