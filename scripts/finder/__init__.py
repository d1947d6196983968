"""One search for the launch that has a given measurement: axes with likelihoods, best first, and `rim measure` of many launches at a time.

axes        what may be one way or another, each way with its likelihood; combinations of them, the likeliest first
runs        runs of `rim` over manifests that are written for it
search      the launches that are tried, round by round: each once, those that begin alike in one run
progress    how far a search is, on a terminal and off it

`rim-manifest settle` and `rim-match` use it. What is searched gives the launches in their order, the likeliest first: each with its table in a
manifest, by what it is told apart, and what of it is measured, part by part.
"""
