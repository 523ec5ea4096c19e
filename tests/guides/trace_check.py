"""What docs/TRACE.md, docs/READING.md and README.md name must exist, and be as many as they say: python3 -m tests.guides.trace_check.
Its last line is the count."""
import sys

from tests.guides import citation_cases, citation_self_cases, reading_self_cases, table_self_cases, times_self_cases
from tests.harness import runner

sys.exit(runner.run(None, [citation_self_cases, table_self_cases, times_self_cases, reading_self_cases, citation_cases]))
