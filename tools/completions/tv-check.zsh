#compdef tv-check
# Made by tools/manuals.py from the options of tv-check; not to be edited.
_arguments -S \
  '(-h --help)'{-h,--help}'[show this help message and exit]' \
  '--opt=[run opt with these arguments, and check what it did]:ARGS: ' \
  '--before=[with --opt\: passes that make the source, e.g. '\''function(sroa)'\'' after clang -O0]:PASSES: ' \
  '--lower[write both sides out in what tv reads, by the plugin of llvm (docs/PLUGIN.md)]' \
  '*'{--function=,-f+}'[only this function, or those of a pattern (sum*); may be repeated]:NAME: ' \
  '(--jobs -j)'{--jobs=,-j+}'[functions at a time (default\: the processors)]:N: ' \
  '--seconds=[limit for a process of tv (default\: TV_TIME, else 10)]:N: ' \
  '--turns=[backward jumps of a run (4)]:N: ' \
  '--blocks=[blocks of memory from outside (fits the pair)]:N: ' \
  '--bytes=[size of such a block (fits the pair, at least 8)]:N: ' \
  '--rounds=[tapes of choices that are added (64)]:N: ' \
  '--conflicts=[learned clauses of a question, 0 is no limit (0)]:N: ' \
  '--weight=[weight of a pair (100000)]:N: ' \
  '--json=-[one object a row, to standard output or --json=FILE]::FILE:_files' \
  '--junit=-[JUnit'\''s XML, to standard output or --junit=FILE]::FILE:_files' \
  '--sarif=-[SARIF 2.1.0, to standard output or --sarif=FILE]::FILE:_files' \
  '--html=-[a page, to standard output or --html=FILE]::FILE:_files' \
  '--first[no row after the first incorrect one, in the order of the text]' \
  '--no-trace[do not show both runs of a counterexample, step by step]' \
  '--keep=[write both modules of a file with a row that is neither correct nor same there, and those on which opt fails]:FOLDER:_files -/' \
  '--allow-marks[status 0 for rows that are correct with the mark that a fault may hide]' \
  '--version[versions of the programs]' \
  '*:file:_files'
