#compdef opt-tv
# Made by tools/manuals.py from the options of opt-tv; not to be edited.
_arguments -S \
  '(-h --help)'{-h,--help}'[show this help message and exit]' \
  '--allow-none[rows of status 3, and nothing judged, pass the gate]' \
  '--summary[the counts of all reports in the folder]:FOLDER:_files -/' \
  '*:file:_files'
