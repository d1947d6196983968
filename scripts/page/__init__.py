"""What `rim-page` is made of: a page of HTML to look at before one signs the values of a release, and the map of a launch as a picture.

words         the words of the command line
reading       what is asked of `rim`: faults, the report, maps, command lines; all of one content
pieces        a manifest of each launch by itself, where there are many
maps          a map as `rim map --json` prints it
markup        elements as texts, and how texts of others are escaped
names         where the part of a launch is in a page, and how lines of `rim` name launches
blocks        how RAM is made of blocks, and what tables divide
picture       a map as a picture (SVG), in a page and by itself
bar           what a measurement is made of, as a bar
launches      the table of all launches
launch_part   the part that one launch has
changes       what changed since a kept report
release_page  the page of a release
sides         the page of two launches, side by side
style         colours and layout, on a screen, in the dark and on paper
script        sorting and searching
whole         the head and the frame of each page, and what a browser may load: nothing
main          the order of all this
"""
