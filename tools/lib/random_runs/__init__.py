"""`tools/random`: drawn runs, each compared with the plain machine.

    drawn     memory, geometry and options of a run
    reports   calls, the events of a report, and what a program comes to
    programs  guest programs that one hart works, or runs again with another beside it
    pairs     guest programs of which both harts work
    cases     a case: a run in pieces, and what each has to come to
    whole     all cases of a seed, and every cut of a program
"""
