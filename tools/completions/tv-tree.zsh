#compdef tv-tree
# Made by tools/manuals.py from the options of tv-tree; not to be edited.
local curcontext=$curcontext state line
_arguments -C \
  '(-h --help)'{-h,--help}'[show this help message and exit]' \
  '1:command:((run\:"do all of the work, and write the table" list\:"print the list of work" do\:"do some of the work" table\:"write rows.csv, index.html and the totals"))' \
  '*::argument:->rest' && return
case $words[1] in
  run)
    _arguments -S \
      '(-h --help)'{-h,--help}'[show this help message and exit]' \
      '*'{-p+,--passes=}'[as opt'\''s -passes; may be given several times]:PASSES: ' \
      '--out=[folder of the answers]:DIR:_files -/' \
      '--allow-marks[status 0 for rows that are correct with a mark]' \
      '--opt=[more arguments for opt, e.g. "-load-pass-plugin=./my.so"]:ARGS: ' \
      '--before=[passes that make the source, e.g. '\''function(sroa)'\'' after clang -O0]:PASSES: ' \
      '--seconds=[limit for a process of tv (default\: TV_TIME, else 10)]:N: ' \
      '--jobs=[pairs at a time (default\: the processors)]:N: ' \
      '*:file:_files' ;;
  list)
    _arguments -S \
      '(-h --help)'{-h,--help}'[show this help message and exit]' \
      '*'{-p+,--passes=}'[as opt'\''s -passes; may be given several times]:PASSES: ' \
      '*:file:_files' ;;
  do)
    _arguments -S \
      '(-h --help)'{-h,--help}'[show this help message and exit]' \
      '--out=[folder of the answers]:DIR:_files -/' \
      '--opt=[more arguments for opt, e.g. "-load-pass-plugin=./my.so"]:ARGS: ' \
      '--before=[passes that make the source, e.g. '\''function(sroa)'\'' after clang -O0]:PASSES: ' \
      '--seconds=[limit for a process of tv (default\: TV_TIME, else 10)]:N: ' \
      '--jobs=[pairs at a time (default\: the processors)]:N: ' \
      '*:file:_files' ;;
  table)
    _arguments -S \
      '(-h --help)'{-h,--help}'[show this help message and exit]' \
      '--out=[folder of the answers]:DIR:_files -/' \
      '--work=[a list of work, - for stdin]:FILE:_files' \
      '--allow-marks[status 0 for rows that are correct with a mark]' \
      '*:file:_files' ;;
esac
