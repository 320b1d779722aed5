"""Changes of the definitions of `session_meaning`, told from their texts."""
from by_clauses import changes_by_clause

LEMMAS, CODE = {}, {}

FILES = [
    "Isolation", "Exchange", "ClientLaws", "ServerLaws", "ReplyLaws", "MessageLaws", "Stopped", "Fates", "Connections",
    "Tables", "Calls", "Causes", "Server", "ServedHistories", "Client", "Waiting",
    "Messages", "MessageFields", "Beginnings",
]

CHANGES = changes_by_clause("session_meaning", FILES)
