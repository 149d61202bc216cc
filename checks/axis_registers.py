"""The registers of parameters in checks/axis: how a testbench writes and reads them at random, what they are to hold by
what was written, and assertions for the proof."""
import os
import sys

from common import HOME, width_of

sys.path.append(os.path.join(HOME, 'tools'))
from registers import address_bits, words_of  # noqa: E402


def ports_of_sets(parameters):
    """The ports of the parameters, each with its width."""
    return [(f'set__{name}', width_of(kind)) for name, kind in parameters]


# ---- at random


def logged(sets, bench):
    """What is logged at an edge: writes, reads, answers, and what is held in each cycle of reset."""
    shown = ', '.join(f'unit.{name}' for name, _ in sets)
    yield 'wrote = s_axil_awvalid && s_axil_awready; asked = s_axil_arvalid && s_axil_arready;'
    yield f'if (wrote) $display("{bench} %0d write %0d %h %b", cycle, s_axil_awaddr, s_axil_wdata, s_axil_wstrb);'
    yield f'if (asked) $display("{bench} %0d read %0d", cycle, s_axil_araddr);'
    yield f'if (s_axil_bvalid && s_axil_bready) $display("{bench} %0d wrote %b", cycle, s_axil_bresp);'
    yield f'if (s_axil_rvalid && s_axil_rready) $display("{bench} %0d got %b %h", cycle, s_axil_rresp, s_axil_rdata);'
    yield f'if (unit.rst) $display("{bench} %0d reset {"%h " * len(sets)}", cycle, {shown});'


def driven(sets):
    """What is driven behind an edge: what is offered stays until it is taken."""
    words = 2 * len(sets) + 2
    yield 'if (wrote) begin s_axil_awvalid = 0; s_axil_wvalid = 0; end'
    yield 'if (asked) s_axil_arvalid = 0;'
    yield 'if (!s_axil_awvalid && coin(cycle < 200 ? 128 : 4)) begin'
    yield f's_axil_awvalid = 1; s_axil_awaddr = 4 * ($urandom % {words});'
    yield 's_axil_wdata = $urandom; if (coin(192)) s_axil_wdata = $urandom % 8;'
    yield 's_axil_wstrb = coin(224) ? 15 : $urandom;'
    yield 'end'
    yield 'if (s_axil_awvalid && coin(128)) s_axil_wvalid = 1;'
    yield f'if (!s_axil_arvalid && coin(8)) begin s_axil_arvalid = 1; s_axil_araddr = 4 * ($urandom % {words}); end'
    yield 's_axil_bready = coin(128); s_axil_rready = coin(128);'


class Registers:
    """What was written, said without cycles: the words of each parameter, and the value that is next."""

    def __init__(self, sets):
        self.sets, self.words, self.next = sets, {}, {}
        self.places = {number: (name, low, width) for number, name, low, width in words_of(sets)}

    def write(self, number, data, lanes):
        """A write, and whether there is such a word."""
        if number not in self.places:
            return False
        name, low, width = self.places[number]
        mask = sum(255 << 8 * lane for lane in range(4) if lanes[3 - lane] == '1') & (1 << width) - 1
        self.words[number] = (self.words.get(number, 0) & ~mask) | (data & mask)
        if not low:
            self.next[name] = self.words[number] | self.words.get(number + 1, 0) << 32
        return True

    def read(self, number):
        """The answer to a read and the word, or nothing for the word of the state."""
        if number == 2 * len(self.sets):
            return '00', None
        return ('00', self.words.get(number, 0)) if number in self.places else ('10', 0)

    def held(self):
        """The values that the next session has, or nothing where one has not been written."""
        return [self.next[name] for name, _ in self.sets] if len(self.next) == len(self.sets) else None


def until(registers, writes, cycle):
    """The registers with all that was written up to a cycle; these writes are gone."""
    while writes and writes[0][0] <= cycle:
        registers.write(*writes.pop(0)[1:])
    return registers


def answered(log, sets):
    """What is wrong with an answer, or nothing. A read in the cycle of a write has the word before it."""
    registers, writes, wanted = Registers(sets), [], {'wrote': [], 'got': []}
    for line in log:
        cycle, sort, *words = line.split() + ['']
        if sort == 'write':
            number = int(words[0]) // 4
            writes.append((int(cycle), number, int(words[1], 16), words[2]))
            wanted['wrote'].append(('00' if number in registers.places else '10', None))
        elif sort == 'read':
            wanted['got'].append(until(registers, writes, int(cycle) - 1).read(int(words[0]) // 4))
        elif sort in wanted:
            answer, word = wanted[sort].pop(0) if wanted[sort] else ('none', None)
            if words[0] != answer or (word is not None and int(words[1], 16) != word):
                return f'{sort} {" ".join(words)} in cycle {cycle}, and {answer} {word} was wanted'
    return ''


def sets_in(log, sets):
    """The values of each session by what was logged, and what is wrong with them, or nothing. What is held in a reset
    was written two cycles before, or earlier."""
    registers, writes, sessions, ends = Registers(sets), [], {}, 0
    for line in log:
        cycle, sort, *words = line.split()
        if sort == 'write':
            writes.append((int(cycle), int(words[0]) // 4, int(words[1], 16), words[2]))
        elif sort == 'reset':
            sessions[ends] = [int(it, 16) for it in words], until(registers, writes, int(cycle) - 2).held()
        ends += sort == 'end'
    pairs = [sessions[at] for at in range(ends)]
    wrong = [f'a session has {values}, and {wanted} was written' for values, wanted in pairs if values != wanted]
    return [values for values, _ in pairs], ''.join(wrong[:1])


# ---- by proof


def registers_kept(sets):
    """Assertions about parameters: none moves but for a reset, and no session begins before each has been written."""
    for name, width in sets:
        yield f'reg [{width - 1}:0] was_{name}; always @(posedge aclk) was_{name} <= {name};'
        yield f'always @* if (there && !rst) assert ({name} == was_{name});'
    yield 'always @* if (there && !rst) assert (complete);'
