"""Changes of the definitions of `auth_cli`, told from their texts."""
from by_clauses import changes_by_clause

LEMMAS, CODE = {}, {}

CHANGES = changes_by_clause("auth_cli", ["NetRuns"])
