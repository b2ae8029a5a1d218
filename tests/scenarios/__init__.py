"""The table of scenarios, by the names of its rows."""
from scenarios import ends, keys, limits, only_c, questions, stops

ROWS = keys.ROWS | limits.ROWS | stops.ROWS | questions.ROWS | ends.ROWS | only_c.ROWS
