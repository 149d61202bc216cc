"""From times to cycles: what tools/beats and tools/pcap share. It has no command of its own."""
import argparse
import bisect
import collections
import csv
import sys
from fractions import Fraction

from common import opened, text_of

LAST = 10_000_000

Event = collections.namedtuple('Event', 'time stream values')  # a tuple at a time in seconds; a tick has no stream
Placed = collections.namedtuple('Placed', 'beats moved cuts')  # the beats, rows that were moved, and shortened pauses


class Beat:
    """What comes in one cycle: a tick or none, and a row of some of the streams."""

    def __init__(self, cycle, ticked, rows):
        self.cycle, self.ticked, self.rows = cycle, ticked, rows


def number(text):
    """A number of the command line, exact."""
    try:
        return Fraction(text)
    except (ValueError, ZeroDivisionError):
        raise argparse.ArgumentTypeError(f'{text!r} is no number') from None


def with_cycles(words, clock=None):
    """The options that say how times become cycles."""
    shown = f' ({float(clock):g})' if clock else ''
    words.add_argument('--clock', metavar='HERTZ', type=number, default=clock, help=f'cycles in a second{shown}')
    words.add_argument(
        '--gap', metavar='G', type=int, default=1, help='the gap of the query, as `figures` prints it (%(default)s)'
    )
    words.add_argument(
        '--ticks', metavar='H', type=int, help='the distance of ticks, where `figures` prints one; without it the gap'
    )
    words.add_argument(
        '--tick', metavar='SECONDS', type=number, help='the time from one tick to the next; without it there are none'
    )
    words.add_argument('--idle', metavar='N', type=int, help='the longest pause, in cycles')
    words.add_argument('--wait', action='store_true', help='beats wait until the gap has run, as behind a FIFO')
    words.add_argument('--origin', metavar='FILE', help='where clock, first time stamp and pauses are kept')


def check_cycles(words, asked):
    """Refuses options that say nothing."""
    if (asked.tick is not None and asked.tick <= 0) or (asked.clock is not None and asked.clock <= 0):
        words.error('--tick is a time above 0, and --clock a number above 0')
    if asked.gap < 1 or (asked.idle is not None and asked.idle < 1):
        words.error('--gap and --idle are at least 1')
    if asked.ticks is None:
        asked.ticks = asked.gap
    if asked.ticks < asked.gap:
        words.error('--ticks is at least the gap, since a tick is a beat')
    if asked.tick and asked.clock and asked.tick * asked.clock < asked.ticks:
        words.error(f'ticks are {float(asked.tick * asked.clock):.4g} cycles apart, which is nearer than they may be')


def with_ticks(events, every):
    """Events, and in front of the one behind it each multiple of a length of time, as a tick."""
    before = None
    for event in events:
        if every and before is not None:
            passed = range(before // every + 1, event.time // every + 1)
            yield from (Event(every * multiple, None, None) for multiple in passed)
        before = event.time
        yield event


def placed(events, asked):
    """The beats of events. A row comes in its cycle, or, where its stream has one there, in the next free one. A tick
    waits until the gap and the distance of ticks have run, or goes with the next row."""
    beats, cuts, moved, cut, first = [], [], 0, 0, None
    for event in events:
        first = event.time if first is None else first
        cycle, last = int((event.time - first) * asked.clock) - cut, beats[-1].cycle if beats else -1
        longest = asked.idle and max(asked.idle, least_pause(event, asked))
        if beats and longest and cycle - last > longest:
            cut, cycle = cut + cycle - last - longest, last + longest
            cuts.append((cycle, cut))
        if event.stream is None:
            beats.append(Beat(max(cycle, last + asked.gap, next_tick(beats, asked)), True, {}))
        else:
            moved += put(beats, cycle, event, asked)
    return Placed(beats, moved, cuts)


def least_pause(event, asked):
    """The cycles that no pause in front of an event may be shortened to less than."""
    return asked.ticks if event.stream is None else asked.gap if asked.wait else 0


def next_tick(beats, asked):
    """The first cycle in which a tick may come behind some beats."""
    return next((beat.cycle + asked.ticks for beat in reversed(beats) if beat.ticked), 0)


def put(beats, cycle, event, asked):
    """Puts a row into the beat of its cycle, or into one of its own; whether it was moved behind its cycle."""
    if beats and beats[-1].rows and event.stream not in beats[-1].rows and cycle <= beats[-1].cycle:
        beats[-1].rows[event.stream] = event.values
        return cycle < beats[-1].cycle
    tick = beats.pop() if beats and not beats[-1].rows else None  # it may go with this row
    free = beats[-1].cycle + (1 if beats[-1].rows and not asked.wait else asked.gap) if beats else 0
    at = max(cycle, free, next_tick(beats, asked) if tick else 0)
    joins = tick is not None and at < tick.cycle + asked.gap
    if tick is not None and not joins:
        beats.append(tick)
    beats.append(Beat(at, joins, {event.stream: event.values}))
    return cycle < at


def end_of(beats, asked):
    """The cycle of the end: that of the last beat, or later where a tick before it is nearer than ticks may be."""
    return max(beats[-1].cycle, next_tick(beats[:-1], asked)) if beats else 0


def written(beats, asked, sets=()):
    """Writes a tuple file to standard output, with the values of the parameters in front."""
    end = end_of(beats, asked)
    if end > LAST:
        sys.exit(
            f'the feed ends in cycle {end:,}, and a tuple file at {LAST:,}: '
            'shorten its pauses by --idle, or take a slower clock'
        )
    write = csv.writer(sys.stdout, lineterminator='\n').writerow
    for name, value in sets:
        write(['set', name, value])
    for beat in beats:
        if beat.ticked:
            write([beat.cycle, 'tick'])
        for stream, values in beat.rows.items():
            write([beat.cycle, stream, *values])
    if beats and end > beats[-1].cycle:
        write([end, 'end'])


def told(asked, events, beats, moved):
    """Tells on standard error whether the gap is kept, and answers that it is not."""
    apart = [after.cycle - before.cycle for before, after in zip(beats, beats[1:])]
    near, ticks = sum(it < asked.gap for it in apart), sum(beat.ticked for beat in beats)
    where = 'as the gap lets them' if asked.wait else 'to the next free cycle'
    print(
        f'{len(events)} tuples{f" and {ticks} ticks" if asked.tick else ""} '
        f'over {beats[-1].cycle + 1 if beats else 0} cycles; '
        f'{moved} moved {where}; nearest beats: {min(apart, default=asked.gap)} apart',
        file=sys.stderr,
    )
    if not near:
        distance = f', and ticks one of {asked.ticks}' if asked.ticks > asked.gap else ''
        print(f'they keep a gap of {asked.gap}{distance}', file=sys.stderr)
        return 0
    print(f'they do not keep a gap of {asked.gap}: {near} are nearer; {cure(asked.gap, events)}', file=sys.stderr)
    return 1


def cure(gap, events):
    """At which clock events keep a gap, or that none does."""
    times = sorted({event.time for event in events})
    if len({(event.time, event.stream) for event in events}) < len(events) or len(times) < 2:
        return 'two of a stream have one time stamp, so no clock keeps it, but --wait does'
    least = min(after - before for before, after in zip(times, times[1:]))
    return f'at {float(gap / least):.4g} Hz they keep it, and --wait does'


def keep_origin(path, clock, first, cuts):
    """Writes the file of --origin: clock and first time stamp, and from which cycle on how many were left out."""
    with opened(path, 'w') as file:
        file.write(f'{clock} {first}\n')
        file.writelines(f'{cycle} {cut}\n' for cycle, cut in cuts)


class Origin:
    """The times of cycles, by a file of --origin or by a clock alone."""

    def __init__(self, clock, first=Fraction(0), cuts=()):
        self.clock, self.first, self.cuts = clock, first, sorted(map(tuple, cuts))

    @classmethod
    def of(cls, path):
        """What a file of --origin keeps."""
        lines = [line.split() for line in text_of(path).splitlines()]
        try:
            (clock, first), *cuts = ([Fraction(word) for word in line] for line in lines)
            if clock <= 0 or any(len(it) != 2 for it in cuts):
                raise ValueError
        except (ValueError, ZeroDivisionError):
            sys.exit(f'{path}: no file of --origin: a clock and a first time stamp')
        return cls(clock, first, cuts)

    def time(self, cycle):
        """The time of a cycle, in seconds."""
        behind = bisect.bisect_right(self.cuts, (cycle, float('inf')))
        return self.first + (cycle + (self.cuts[behind - 1][1] if behind else 0)) / self.clock
