"""Changes of the definitions of `net_commands`, told from their texts."""
from by_clauses import changes_by_clause

LEMMAS, CODE = {}, {}

CHANGES = changes_by_clause("net_commands", ["Serving", "Asking", "OnlineRuns", "NetCounts", "NetFaults", "ServeSteps", "AskSteps", "PreparedClients", "PreparedServers", "ToldNumbers"])
