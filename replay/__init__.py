"""Transfers written in words: read, run through the proved programs, listed, told and drawn.

What a bench does is never worked out here. The state after each event comes from the proved probe,
the listing from the proved bench program, and the two are held to each other.

    failure.py      what ends a command: one line for the user
    words.py        the words of a text, read strictly
    events.py       one table of the kinds of events: words, fields, telling, mark
    answers.py      one table of the answers' meanings; the names of statuses, classes and messages
    state.py        a bench's state, from the bytes of the probe
    programs.py     the proved programs, run
    run.py          a text run: each event with the states before and after it
    transfers.py    broken transfers, what is owed, what came in from outside, the check of demand 3
    telling.py      a run told in words
    drawing.py      marks on a picture (SVG)
    chart.py        a run as a picture
    page.py         runs as one HTML page
"""
