"""Changes of the definitions of `command_parts`, told from their texts."""
from by_clauses import changes_by_clause

LEMMAS, CODE = {}, {}

ENDS = ["Outsides", "Ending", "EndingInCode", "Reaching", "Statuses", "Storing", "Telling", "Codes"]
CALLS = ["SoundPrograms", "IdealCalls"]
FOUND = ["Halting", "VerdictHalts", "Arguments", "Reporting"]
ANSWERS = ["AnswerForms", "RefusedAnswers", "FileInputs", "RoleInputs", "AcceptedAnswers", "OutcomeAnswers", "WorkloadAnswers", "Answer", "CallsInStores", "ReadPrograms", "RoleCalls", "RolesCalled", "StoredStates", "TextPrograms"]

# the numbers in `with_workload` are names of fields
CHANGES = changes_by_clause("command_parts", ENDS + CALLS + FOUND + ANSWERS, without=("with_workload",))
