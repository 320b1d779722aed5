"""Changes of the definitions of `core_terms`: arrays. `of_core_terms.py` says how they are written."""

CHANGES = {
    "Types": [
        ("is_length: 0 too", "is_length n = nat_le 1 n && nat_le n 64", "is_length n = nat_le n 64"),
        ("is_length: 65 too", "is_length n = nat_le 1 n && nat_le n 64", "is_length n = nat_le 1 n && nat_le n 65"),
        ("is_length: 64 not", "is_length n = nat_le 1 n && nat_le n 64", "is_length n = nat_le 1 n && nat_le n 63"),
        (
            "item_types: one more",
            "item_types n t = replicate n t",
            "item_types n t = replicate (suc n) t",
            "{ℕ, Bool, ◌&&◌, nat_le, List,",
            "{ℕ, suc, Bool, ◌&&◌, nat_le, List,",
        ),
        (
            "same_type: arrays of any length",
            "same_type (VecTy m a) (VecTy n b) = nat_eq m n && same_type a b",
            "same_type (VecTy m a) (VecTy n b) = same_type a b",
        ),
        (
            "same_type: arrays of any element",
            "same_type (VecTy m a) (VecTy n b) = nat_eq m n && same_type a b",
            "same_type (VecTy m a) (VecTy n b) = nat_eq m n",
        ),
    ],
    "Values": [
        (
            "IsIdeal: an array of any length",
            "IsIdeal (VecTy n t) (ItemsV vs) = AreIdeal (item_types n t) vs",
            "IsIdeal (VecTy n t) (ItemsV vs) = Unit {0}",
        ),
        (
            "IsShallow: an array of one element",
            "IsShallow (VecTy n t) (ItemsV vs) = AreShallow (item_types n t) vs",
            "IsShallow (VecTy n t) (ItemsV vs) = AreShallow (item_types 1 t) vs",
        ),
        (
            "size: the first element's",
            "size (VecTy n t) (ItemsV vs) = sizes (item_types n t) vs",
            "size (VecTy n t) (ItemsV vs) = sizes (item_types 1 t) vs",
        ),
        (
            "size: a byte for the length",
            "size (VecTy n t) (ItemsV vs) = sizes (item_types n t) vs",
            "size (VecTy n t) (ItemsV vs) = 1 + sizes (item_types n t) vs",
        ),
        (
            "depth: an array adds no level",
            "depth (VecTy n t) (ItemsV vs) = 1 + depths (item_types n t) vs",
            "depth (VecTy n t) (ItemsV vs) = depths (item_types n t) vs",
        ),
        (
            "depth: the first element's",
            "depth (VecTy n t) (ItemsV vs) = 1 + depths (item_types n t) vs",
            "depth (VecTy n t) (ItemsV vs) = 1 + depths (item_types 1 t) vs",
        ),
        (
            "AuthWithin: no element",
            "AuthWithin (VecTy n t) (ItemsV vs) = AuthWithinAll (item_types n t) vs",
            "AuthWithin (VecTy n t) (ItemsV vs) = Unit {0}",
        ),
    ],
    "Spelling": [
        ("spelling: an array is nothing", "spelling (ItemsV vs) = spellings vs", "spelling (ItemsV vs) = []"),
        (
            "shallow: elements aren't projected",
            "shallow (VecTy n t) (ItemsV vs) = ItemsV (shallow_all (item_types n t) vs)",
            "shallow (VecTy n t) (ItemsV vs) = ItemsV vs",
        ),
        ("shallow: the first element alone", "ItemsV (shallow_all (item_types n t) vs)", "ItemsV (shallow_all (item_types 1 t) vs)"),
    ],
    "Reading": [
        (
            "read_value: one element",
            "read_each (read_value levels) (item_types n t) bytes place",
            "read_each (read_value levels) (item_types 1 t) bytes place",
        ),
        (
            "read_value: elements on the array's level",
            "read_each (read_value levels) (item_types n t)",
            "read_each (read_value (suc levels)) (item_types n t)",
        ),
        ("read_value: an array is a constructor", "Good (ItemsV vs) bytes place", "Good (ConV 0 vs) bytes place"),
    ],
    "Terms": [
        ("operand_types: a fill of any value", "operand_types (VecFill n t) = t ∷ []", "operand_types (VecFill n t) = IntTy ∷ []"),
        (
            "operand_types: an element at any value",
            "operand_types (VecGet n t) = VecTy n t ∷ IntTy ∷ []",
            "operand_types (VecGet n t) = VecTy n t ∷ t ∷ []",
        ),
        (
            "operand_types: the index comes first",
            "operand_types (VecGet n t) = VecTy n t ∷ IntTy ∷ []",
            "operand_types (VecGet n t) = IntTy ∷ VecTy n t ∷ []",
        ),
        (
            "operand_types: no replacement",
            "operand_types (VecPut n t) = VecTy n t ∷ IntTy ∷ t ∷ []",
            "operand_types (VecPut n t) = VecTy n t ∷ IntTy ∷ []",
        ),
        ("operand_types: an array as replacement", "VecTy n t ∷ IntTy ∷ t ∷ []", "VecTy n t ∷ IntTy ∷ VecTy n t ∷ []"),
        ("result_type: a fill is its element", "result_type (VecFill n t) = VecTy n t", "result_type (VecFill n t) = t"),
        ("result_type: an element is its array", "result_type (VecGet n t) = t", "result_type (VecGet n t) = VecTy n t"),
        ("result_type: a replacement is its element", "result_type (VecPut n t) = VecTy n t", "result_type (VecPut n t) = t"),
    ],
    "TypingRules": [
        ("is_operation: a fill of any length", "is_operation (VecFill n t) = is_length n", "is_operation (VecFill n t) = true"),
        ("is_operation: an element of any length", "is_operation (VecGet n t) = is_length n", "is_operation (VecGet n t) = true"),
        ("is_operation: a replacement of any length", "is_operation (VecPut n t) = is_length n", "is_operation (VecPut n t) = true"),
        (
            "HasType: an operation of any type",
            "(result_type op ≡ t) × (is_operation op ≡ true) × HaveTypes env xs (operand_types op)",
            "(is_operation op ≡ true) × HaveTypes env xs (operand_types op)",
        ),
        (
            "HasType: an operation of any length",
            "(result_type op ≡ t) × (is_operation op ≡ true) × HaveTypes env xs (operand_types op)",
            "(result_type op ≡ t) × HaveTypes env xs (operand_types op)",
        ),
        (
            "HasType: any operands of an operation",
            "(result_type op ≡ t) × (is_operation op ≡ true) × HaveTypes env xs (operand_types op)",
            "(result_type op ≡ t) × (is_operation op ≡ true)",
        ),
    ],
    "Typing": [
        (
            "has_type: an operation of any type",
            "same_type (result_type op) t && (is_operation op && have_types env xs (operand_types op))",
            "is_operation op && have_types env xs (operand_types op)",
        ),
        ("has_type: an operation of any length", "(is_operation op && have_types env xs (operand_types op))", "have_types env xs (operand_types op)"),
        ("has_type: any operands of an operation", "(is_operation op && have_types env xs (operand_types op))", "is_operation op"),
    ],
    "Roles": [
        (
            "has_auth_within: an array has none",
            "has_auth_within types opened (VecTy n t) = has_auth_within types opened t",
            "has_auth_within types opened (VecTy n t) = false",
        ),
    ],
    "AuthMarks": [
        (
            "mark_of_form: an array has none",
            "mark_of_form marks opened_marks (VecForm n part) = is_marked_field marks part",
            "mark_of_form marks opened_marks (VecForm n part) = false",
        ),
    ],
    "TypeTables": [
        (
            "type_of_form: an array of one element",
            "type_of_form types (VecForm n part) = VecTy n (type_at types part)",
            "type_of_form types (VecForm n part) = VecTy 1 (type_at types part)",
        ),
        ("stands_behind: an array of any length", "nat_lt part.0 n && is_length len", "nat_lt part.0 n"),
        ("stands_behind: an array of any part", "nat_lt part.0 n && is_length len", "is_length len"),
        (
            "is_form_in: arrays in each format",
            "is_form_in format (VecForm len part) = arrays_of format",
            "is_form_in format (VecForm len part) = true",
        ),
    ],
    "ProgramTrees": [
        (
            "operation_of: a fill is an element",
            "operation_of types (coded.VecFill n item) = VecFill n",
            "operation_of types (coded.VecFill n item) = VecGet n",
        ),
        (
            "operation_of: an element is a replacement",
            "operation_of types (coded.VecGet n item) = VecGet n",
            "operation_of types (coded.VecGet n item) = VecPut n",
        ),
        (
            "operation_of: a replacement is an element",
            "operation_of types (coded.VecPut n item) = VecPut n",
            "operation_of types (coded.VecPut n item) = VecGet n",
        ),
        ("expression_from_parts: no operands", "OperateE (operation_of types op) (in_a_row operands.items)", "OperateE (operation_of types op) NoE"),
    ],
    "ProgramSizes": [
        (
            "levels_of_type: an array adds none",
            "levels_of_type (VecTy n t) = suc (levels_of_type t)",
            "levels_of_type (VecTy n t) = levels_of_type t",
        ),
        (
            "expressions_in: operands aren't counted",
            "expressions_in (OperateE op xs) = suc (expressions_in_row xs)",
            "expressions_in (OperateE op xs) = 1",
        ),
        ("levels_of: operands aren't counted", "levels_of (OperateE op xs) = suc (levels_of_row xs)", "levels_of (OperateE op xs) = 1"),
        ("locals_in: no operand is looked at", "locals_in n (OperateE op xs) = locals_in_row n xs", "locals_in n (OperateE op xs) = n"),
    ],
}
