# Made by tools/manuals.py from the options of opt-tv; not to be edited.
complete -c opt-tv -s h -l help -d 'show this help message and exit'
complete -c opt-tv -l allow-none -d 'rows of status 3, and nothing judged, pass the gate'
complete -c opt-tv -l summary -x -a '(__fish_complete_directories)' -d 'the counts of all reports in the folder'
