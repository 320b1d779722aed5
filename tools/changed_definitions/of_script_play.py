"""Changes of the definitions of `script_play`, told from their texts."""
from by_clauses import changes_by_clause

LEMMAS, CODE = {}, {}

CHANGES = changes_by_clause("script_play", ["Playing", "PlayingInCode", "PlayedInCode", "Halting", "HaltingInCode", "PlayRuns", "Plays", "DeedLines", "Tellings", "Prompt"])
