"""The text of docs/SCENARIOS.md as the scripts of compare/, bench/, examples/ and sheet/ write and read it: floats, words,
lines, what the numbers mean, and the draws of made-up prices. A script finds this package by putting tools/ on Python's path."""
