"""Refusals and reasons: their numbers, and the sentence of each."""
from __future__ import annotations

SENTENCES = {
    1: "a count is outside its bound, or a buffer is shorter than the counts ask",
    2: "row {place} has a kind that is none of the nine formulas",
    3: "row {place} names a variable that is not there, has a number of inputs that its kind does not take, or its entries"
       " are not the next ones",
    4: "row {place} has a coefficient or a parameter outside its bound; or if no row has, variable {place} has bounds that"
       " are blank, not in order, or not full though a row makes it",
    5: "row {place} makes a variable that an earlier row makes already",
    6: "variable {place} depends on itself by a closed chain that passes no candidate of an ELEMENT, or the index of one",
    7: "variable {place} has no value or one outside its bounds and no row makes it, or a row makes it and it starts at"
       " another value than 0",
    8: "the numbers, the order or the readers are not those that build gives for these tables",
    9: "there is no such route: it is 1, 2 or 3",
    10: "pair {place} of the move names a variable that a row makes, or one that is not there",
    11: "pair {place} of the move names the variable of an earlier pair",
    12: "pair {place} of the move has no value",
    13: "place {place} of the asked list names a variable that is not there",
    14: "the file is no whole model file of the version asked for: it is wrong at byte {place}",
    15: "no kept move is left to take back",
    16: "the log of kept moves is not one that keep and taking back may leave within these bounds",
    17: "pair {place} of the move has a value outside its variable's bounds",
    18: "variable {place} has bounds that a file of version 1 cannot hold",
    19: "the record's number of blanks is not that of the stored values",
    20: "variable {place} cannot be worked out: the candidates that are chosen lead round a closed chain",
    21: "variable {place} has another stored value than the one worked out afresh, in a model with a closed chain",
}

BOARD_SENTENCES = {
    1: "there are more than 64 windows",
    2: "window {place} has a blank number, or a headway of 0 or less",
    3: "window {place} overlaps another",
    4: "there are more than 2,000 departures",
    5: "the list has fewer places than there are departures",
}

FREQUENCIES_SENTENCES = {
    1: "the file has more than 2,147,483,647 bytes",
    2: "line {place} does not name trip_id, start_time, end_time or headway_secs, or names one of these or exact_times twice",
    3: "line {place} has another number of fields than the first; a quote that is not closed takes in the lines below it",
    4: "line {place} has a quote that is not closed, or one where none may stand",
    5: "line {place} has a time that is none, or beyond 596523:14:07: it is written as 6:00:00",
    6: "line {place} has a headway that is no positive whole number of seconds",
    7: "line {place} has an exact_times that is neither empty nor 0 nor 1",
    8: "line {place} names no trip",
}

WRITTEN_SENTENCES = {
    1: "there are more than 2,147,483,647 windows",
    4: "window {place} has a quote in its name that is not double",
    5: "window {place} has a time below 0",
    6: "window {place} has a headway of 0 or less",
    7: "window {place} has an exact_times that is neither 0 nor 1",
    8: "window {place} has a trip without a name",
    9: "the file would have more than 2,147,483,647 bytes",
}

REASONS = {
    1: "the result leaves the value range",
    2: "the index lies outside",
    3: "the headway is 0 or less",
    4: "a blank input stops it",
    5: "the window has no departures",
}


class Refused(Exception):
    """A refusal of the engine: nothing has changed.

    >>> str(Refused(5, 3))
    'refused 5 3: row 3 makes a variable that an earlier row makes already'
    """

    sentences = SENTENCES

    def __init__(self, number: int, place: int) -> None:
        super().__init__(number, place)
        self.number, self.place = number, place

    @property
    def sentence(self) -> str:
        """What the number means, at this place."""
        return self.sentences[self.number].format(place=self.place)

    def __str__(self) -> str:
        return f"refused {self.number} {self.place}: {self.sentence}"


class BoardRefused(Refused):
    """A refusal of the board, which has numbers of its own.

    >>> str(BoardRefused(4, 0))
    'refused 4 0: there are more than 2,000 departures'
    """

    sentences = BOARD_SENTENCES


class FrequenciesRefused(Refused):
    """A refusal of frequencies.txt, which has numbers of its own; the place is a line, counted from 1.

    >>> str(FrequenciesRefused(8, 2))
    'refused 8 2: line 2 names no trip'
    """

    sentences = FREQUENCIES_SENTENCES


class WrittenRefused(Refused):
    """A refusal of windows that are to be written as frequencies.txt; the place is a window, counted from 0."""

    sentences = WRITTEN_SENTENCES
