"""Lines with their answers for refused.py, most of them from the files of scripts/: each command,
cause, fault and kind of answer at least once.
"""

from pathlib import Path

from faults.line_faults import names
from transcripts import Transcript, transcripts

HERE = Path(__file__).parent / "scripts"
RUNS = transcripts(HERE / "runs.txt")

# Each command, cause, fault and answer, but `{"full":"serials"}`, which the second script has,
# `crowded`, which the third has, what is asked for an agent, which the fourth has, and `too many
# lines`.
LATER = RUNS["freeing-and-principals"]
RUN = RUNS["most"] + RUNS["long-texts"] + LATER + RUNS["too-long"]
WITHOUT_ERRORS, ACTING, SHORT = (RUNS[name] for name in ("without-errors", "acting", "short"))
CROWDED = Transcript([b'{"principals":["%s"]}' % '","'.join(names(64)).encode()]) + RUNS["crowded"]
# The first without what is long, for reads and writes of few bytes.
PLAIN = RUNS["most"] + LATER

REFUSED_OPENINGS = [*transcripts(HERE / "openings.txt").values()]
AUDITS = [*transcripts(HERE / "audits.txt").values()]
# A hello and a bye.
GREETING = [b'{"name":"alice","op":"hello","seat":0}', b'{"op":"bye","seat":0}']

# The opening of a server, with room for all that its clients make, who come one after the other.
SERVED = b'{"cells":8,"edges":[[1,"tg",2]],"principals":["alice","bob"],"slots":8}'
TALKS = [*transcripts(HERE / "talks.txt").values()]
