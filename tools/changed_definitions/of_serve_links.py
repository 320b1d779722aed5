"""Changes of the definitions of `serve_links`, told from their texts."""
from by_clauses import changes_by_clause

LEMMAS, CODE = {}, {}

CHANGES = changes_by_clause("serve_links", ["ServedLinks", "ServedLinksInCode", "Connections", "Messages", "Prompt", "Ends", "Histories", "HistoriesInCode", "LinkLaws"])
