"""The hunt: what the program does is looked at by chance, and compared with what a plain model of it does.

The model says what `docs/FORMATS.md` says, and nothing of how the program works: `session` and `tables`, over `model`,
`records`, `deltas`, `contents`, `formulas`, `functions`, `tokens` and `places`; each names the sections that it is of.

`parts` has the parts of the hunt. Scripts: `themes` makes them, over `scripts`, `tables_by_chance`, `delta_lines`,
`entries` and `chance`, and `runs` runs them. Replicas: `replicas_by_chance` makes plans of them, which `replicas` runs,
over `processes`. Sessions: `sessions_by_chance` makes plans of them, which `sessions` runs, over `channels` and
`talks`, and `histories` judges. Faults: `shortages`, with the library of `calls.c`. Costs: `costs_by_chance` makes
plans of dear lines, and dearer ones of these, which `costs` times.

`finds` runs plans and keeps those that show a trouble, `plans` writes them down, `shrink` makes them smaller. `faults`,
`replica_faults` and `session_faults` have what is planted for the hunt's own tests, over `desks`.

`command` is `./test --hunt MINUTES`; `docs/TESTING.md` tells more.
"""
