"""Changes of the definitions of `call_commands`, told from their texts."""
from by_clauses import changes_by_clause

LEMMAS, CODE = {}, {}

CHANGES = changes_by_clause("call_commands", ["AnswersBehind", "NamedPrograms", "TrueLines", "AuditedCalls", "ProvedCalls", "ShallowLaws"])
