"""What the comparisons share: a program's output, the first difference, and the table of outcomes."""

import subprocess


class Differs(Exception):
    """What differs, told in text, and how many agree before it."""


def shown(data):
    return data.hex(" ") or "(no bytes)"


def program_output(command, data):
    try:
        done = subprocess.run(command, input=data, stdout=subprocess.PIPE, stderr=subprocess.PIPE, timeout=60)
    except subprocess.TimeoutExpired:
        raise Differs("the program did not end in 60 seconds\ninput %s" % shown(data), 0)
    if done.returncode != 0:
        raise Differs("the program ended with status %d\ninput %s\n%s"
                      % (done.returncode, shown(data), done.stderr.decode(errors="replace")[:500]), 0)
    return done.stdout


def compare(what, pairs, output):
    """Compares the wanted answers to one input, pairs of what was given and its reply, with what the program wrote."""
    if b"".join(reply for _, reply in pairs) == output:
        return
    at = 0
    for index, (given, reply) in enumerate(pairs):
        if output[at:at + len(reply)] != reply:
            raise Differs("%-10s%s\nreference %s\nprogram   %s ..."
                          % (what, shown(given), shown(reply), shown(output[at:at + len(reply) + 8])), index)
        at += len(reply)
    raise Differs("the program answers more than %d times: %s ..." % (len(pairs), shown(output[at:at + 40])), len(pairs))


class OutcomeTable:
    """Outcomes by row, and what the unrefused ones of a row answer.

    can_occur has for each row the outcomes that are to occur; answers has for some rows the names of answers. An entry is too rare
    where it has fewer than least(its row's total); for answers the total is that of outcome 0. Where can_occur is complete, other
    outcomes are told too.
    """

    def __init__(self, can_occur, outcomes, answers, least_outcome, least_answer, complete=False):
        self.can_occur, self.shown, self.complete = can_occur, outcomes, complete
        self.least_outcome, self.least_answer = least_outcome, least_answer
        self.outcomes = {row: dict.fromkeys(range(14), 0) for row in can_occur}
        self.answers = {row: dict.fromkeys(names, 0) for row, names in answers.items()}

    def add(self, row, outcome, names=(), count=1):
        self.outcomes[row][outcome] += count
        for name in names:
            self.answers[row][name] += count

    def show(self, title):
        """Prints both tables; gives the entries that are too rare, and those that cannot be."""
        return self.show_outcomes(title) + self.show_answers()

    def show_outcomes(self, title):
        poor, all_rows = [], 0
        print("\n%s\n%-12s%10s" % (title, "", "all") + "".join("%9d" % outcome for outcome in self.shown))
        for row, counts in self.outcomes.items():
            total = sum(counts.values())
            all_rows += total
            print("%-12s%10d" % (row, total)
                  + "".join("%9s" % (counts[o] if o in self.can_occur[row] or counts[o] else "-") for o in self.shown))
            poor += ["%s, outcome %d: %d of %d" % (row, o, counts[o], total) for o in self.can_occur[row]
                     if counts[o] < self.least_outcome(total)]
            if self.complete:
                poor += ["%s, outcome %d cannot be" % (row, o) for o, count in counts.items() if count and o not in self.can_occur[row]]
        print("%-12s%10d" % ("all", all_rows))
        return poor

    def show_answers(self):
        if not self.answers:
            return []
        poor = []
        print("\nWhat the unrefused ones answer")
        for row, counts in self.answers.items():
            total = self.outcomes[row][0]
            print("%-12s%10d   " % (row, total) + ", ".join("%s %d" % pair for pair in counts.items()))
            poor += ["%s, %s: %d of %d" % (row, name, count, total) for name, count in counts.items()
                     if count < self.least_answer(total)]
        return poor


def verdict(passed, poor):
    """Prints the last lines of a comparison in which nothing differed; gives the exit status."""
    for line in poor:
        print("too few: " + line)
    print("%d passed, %d failed" % (passed, len(poor)))
    return 1 if poor else 0


def slips_verdict(slips, left):
    """Prints the last lines of a search for slips; gives the exit status."""
    for name in left:
        print("%-44s NOT FOUND" % name)
    print("%d passed, %d failed" % (len(slips) - len(left), len(left)))
    return 1 if left else 0
