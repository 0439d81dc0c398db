"""`tools/cuts`: runs of a program with a cut of power each, compared with one that has none.

    calls    calls of the program, which an interrupt ends together
    jobs     what each run is called by and compared with
    judging  whether a run is as it has to be, and the sums of all
    windows  in which cycles the events of a run are, and where the tears decide
"""
