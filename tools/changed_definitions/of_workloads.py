"""Changes of the definitions of `workloads`, told from their texts."""
from by_clauses import changes_by_clause

LEMMAS, CODE = {}, {}

CHANGES = changes_by_clause("workloads", ["Sums", "Workloads"])
