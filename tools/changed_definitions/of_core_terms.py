"""Changes of the definitions of `core_terms`, of one clause each.

By file of `specs/`: what is changed, the text that stands there once, and what stands there instead. Further pairs of texts, as of an import,
belong to the same change.
"""
import arrays_of_core_terms
import formats_of_core_terms
import programs_of_core_terms
import terms_of_core_terms
import values_of_core_terms

# the lemmas for the crates above that are read with the laws, by their files
LEMMAS = {"TermViews": "expression-UnitLiteral"}

# by file of `specs/`, the modules of the code that cite its definitions
CODE = {
    "AuthMarks": ["marks"],
    "Faults": ["fault"],
    "Fronts": ["fronts"],
    "ProgramFormats": ["program_types"],
    "ProgramTrees": ["marks", "roles", "program_types", "program"],
    "ProgramTypes": ["program_types"],
    "Programs": ["types", "program_types"],
    "RoleViews": ["roles", "program"],
    "Roles": ["roles", "program"],
    "TypeDeclarations": ["type_texts"],
    "TypeNames": ["program_types"],
    "TypeTables": ["types", "marks"],
}

CHANGES = {}
for part in (values_of_core_terms, terms_of_core_terms, programs_of_core_terms, formats_of_core_terms, arrays_of_core_terms):
    for file, rows in part.CHANGES.items():
        CHANGES.setdefault(file, []).extend(rows)
