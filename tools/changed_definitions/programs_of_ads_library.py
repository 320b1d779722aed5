"""Changes of the definitions of `ads_library` that are of the programs themselves: see `of_ads_library.py`."""

CHANGES = {
    "RedBlackProgram": [
        ("by_key: smaller keys behind", "(IfE (CompareE Lt (LocalE 1) other) before behind)", "(IfE (CompareE Lt (LocalE 1) other) behind before)"),
        ("look_in_node: the key is the answer", "(found_is (LocalE 3))", "(found_is (LocalE 2))"),
        (
            "redblack_red_left: a Red in place of two",
            "clash (LocalE 4 ∷ LocalE 5 ∷ LocalE 1 ∷ LocalE 2 ∷ LocalE 6 ∷ LocalE 7 ∷ LocalE 3 ∷ [])",
            "rising (LocalE 1) (LocalE 2) (LocalE 6) (LocalE 3)",
        ),
        (
            "redblack_black_left: the subtrees of a Black in turn",
            "(black (LocalE 4) (LocalE 5) (LocalE 8) (LocalE 9)) (black (LocalE 1) (LocalE 2) (LocalE 10) (LocalE 3))",
            "(black (LocalE 4) (LocalE 5) (LocalE 9) (LocalE 8)) (black (LocalE 1) (LocalE 2) (LocalE 10) (LocalE 3))",
        ),
        (
            "redblack_black_right: a Red in place of a Black",
            "(black (LocalE 6) (LocalE 7) (LocalE 9) (LocalE 10))",
            "(red (LocalE 6) (LocalE 7) (LocalE 9) (LocalE 10))",
        ),
        (
            "redblack_ins: the old value stays",
            "by_key (LocalE 3) (settled (black (LocalE 3) (LocalE 2) (LocalE 5) (LocalE 6)))",
            "by_key (LocalE 3) (settled (black (LocalE 3) (LocalE 4) (LocalE 5) (LocalE 6)))",
        ),
        (
            "redblack_root: a Red",
            "    ∷ black (LocalE 1) (LocalE 2) (LocalE 3) (LocalE 4)\n",
            "    ∷ red (LocalE 1) (LocalE 2) (LocalE 3) (LocalE 4)\n",
        ),
    ],
    "SkipListProgram": [
        ("skiplist_bare: a level more", "(IfE (CompareE Le (LocalE 0) (IntE (pos 0))) floor", "(IfE (CompareE Lt (LocalE 0) (IntE (pos 0))) floor"),
        (
            "skiplist_look: smaller keys are behind",
            "(IfE (CompareE Lt (LocalE 1) (LocalE 3)) (calling 1 (LocalE 2",
            "(IfE (CompareE Lt (LocalE 3) (LocalE 1)) (calling 1 (LocalE 2",
        ),
        ("skiplist_low: the sign stays", "(ArithE Add (LocalE 1) (IntE (pos 65536))) (LocalE 1)))", "(LocalE 1) (LocalE 1)))"),
        (
            "skiplist_level: up to 16",
            "(IfE (CompareE Le (IntE (pos 17)) (LocalE 1)) (IntE (pos 17))",
            "(IfE (CompareE Le (IntE (pos 16)) (LocalE 1)) (IntE (pos 16))",
        ),
        ("skiplist_cut_below: the parts in turn", "(cut_at (last (LocalE 4)) (step (LocalE 5)", "(cut_at (last (LocalE 5)) (step (LocalE 4)"),
        (
            "skiplist_place: the old value stays",
            "(step (LocalE 3) (LocalE 4) (LocalE 2) (LocalE 6))",
            "(step (LocalE 3) (LocalE 4) (LocalE 5) (LocalE 6))",
        ),
        (
            "skiplist_ins: a level lower is the same",
            "∷ last (calling 11 (LocalE 4 ∷ ArithE Sub (LocalE 1) (IntE (pos 1))",
            "∷ last (calling 11 (LocalE 4 ∷ ArithE Sub (LocalE 1) (IntE (pos 0))",
        ),
        (
            "skiplist: levels from 0 on",
            "(FstE IntTy IntTy (LocalE 1) ∷ []) ∷ IntE (pos 1) ∷ []))",
            "(FstE IntTy IntTy (LocalE 1) ∷ []) ∷ IntE (pos 0) ∷ []))",
        ),
        ("skiplist: 16 levels", "(calling 0 (IntE (pos 17) ∷ []))", "(calling 0 (IntE (pos 16) ∷ []))"),
    ],
}
