"""Same-order search, written straight from the rules and from nothing else.

facts      sizes, special values, the names of the counts
refusals   every refusal: its number, its condition, its place
brute      the plain definition over all pairs and all windows, no duels
rules      neighbours, tests, witnesses, agreement, lost stitches, duels, sweep
calls      preparation, search and agreement as calls on lent buffers
frames     patches in the frames of a camera: the definition, and the call
recording  reading and writing recordings
report     the text the program prints
stream     cases as bytes, and the answers expected for them
generate   seeded random cases
scenes     those of frames
"""
