#!/usr/bin/env python3
"""Random legal logs and sessions over the built program, with real files; each answered line is compared with a plain
evaluation of the definitions.

    random_sessions.py PROGRAM [--sessions N] [--seed S] [--jobs J] [--first K] [--words]

It prints a line of what was run and ends with 0, or with 1 at the first difference, whose files it keeps in the folder
`random-session-SEED-NUMBER`; `--seed SEED --first NUMBER --sessions 4` runs that log again.

In the folder beside this file: `primary`, `transactions`, `multixacts` and `changes` make the log, `records` and `archive`
its bytes, `definitions` and `standby` are the evaluation, `legal` says whether a log is one that a primary could write,
`misses`, `transaction_misses` and `multixact_misses` make logs that nearly are, `alterations` changes one number of a log,
and `requests` draws sessions."""
import sys

from random_sessions.run import main

if __name__ == "__main__":
    sys.exit(main())
