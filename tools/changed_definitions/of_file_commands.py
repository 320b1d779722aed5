"""Changes of the definitions of `file_commands`, told from their texts."""
from by_clauses import changes_by_clause

LEMMAS, CODE = {}, {}

CHANGES = changes_by_clause("file_commands", ["GeneratedCalls"])
