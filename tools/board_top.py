"""The text of a top for the iCE40-HX8K breakout board: the wrapper of tools/axis behind the serial line of its USB
port."""
from registers import address_bits, lite_ports
from wrapper import bytes_of

PARAMETER = 64  # what is added to the number of a parameter in front of its value

INPUT = 12.0  # MHz of the board's oscillator
PINS = {
    'clk_in': 'J3',
    'rx': 'B10',
    'tx': 'B12',
    **{f'led[{at}]': pin for at, pin in enumerate(('B5', 'B4', 'A2', 'A1', 'C5', 'C4', 'B3', 'C3'))},
}


def dividers(mhz):
    """The dividers of the PLL with which it gives the least clock that is not below the one asked for, and that clock;
    none for the oscillator's own."""
    if mhz <= INPUT:
        return None, INPUT
    clocks = [
        (INPUT * (divf + 1) / 2**divq, divf, divq)
        for divf in range(128)
        for divq in range(1, 7)
        if 533 <= INPUT * (divf + 1) <= 1066
    ]
    clock, divf, divq = min(it for it in clocks if it[0] >= mhz)
    return (divf, divq), clock


def clocking(pll):
    """The clock, and a reset of 128 of its cycles behind configuration."""
    if pll is None:
        yield 'wire clk = clk_in;'
    else:
        yield 'wire clk;'
        yield f"SB_PLL40_CORE #(.FEEDBACK_PATH(\"SIMPLE\"), .DIVR(4'd0), .DIVF(7'd{pll[0]}), .DIVQ(3'd{pll[1]}),"
        yield "    .FILTER_RANGE(3'd1)) pll(.REFERENCECLK(clk_in), .PLLOUTCORE(clk), .RESETB(1'd1), .BYPASS(1'd0));"
    yield 'reg [7:0] start = 0; wire aresetn = start[7];'
    yield "always @(posedge clk) start <= start + {7'd0, !aresetn};"


def receiver(divide):
    """Bytes of the serial line: 8 bits, no parity, one stop bit."""
    yield from (
        'reg [2:0] line; reg [15:0] rx_wait; reg [3:0] rx_bits; reg [7:0] rx_byte; reg rx_done;',
        'always @(posedge clk) begin',
        '    line <= {line[1:0], rx};',
        "    rx_done <= aresetn && rx_bits == 4'd2 && rx_wait == 16'd0;",
        "    if (!aresetn) rx_bits <= 4'd0;",
        "    else if (rx_bits == 4'd0) begin",
        f"        if (!line[2]) begin rx_bits <= 4'd9; rx_wait <= 16'd{divide + divide // 2 - 2}; end",
        '    end',
        "    else if (rx_wait != 16'd0) rx_wait <= rx_wait - 16'd1;",
        '    else begin',
        f"        rx_wait <= 16'd{divide - 1}; rx_bits <= rx_bits - 4'd1;",
        "        if (rx_bits != 4'd1) rx_byte <= {line[2], rx_byte[7:1]};",
        '    end',
        'end',
    )


def most_bytes(plan):
    """The bytes of the longest frame, of a stream or of a parameter."""
    return max(map(bytes_of, [*(it.columns for it in plan.sides), *([it] for it in plan.sets)]))


def writes(plan):
    """The write of a parameter's value over AXI4-Lite: the bits from 32 on first, where it has such."""
    most, bits = 8 * most_bytes(plan), address_bits(plan.sets)
    places = [(f"7'd{2 * at + half}", 32 * half, bytes_of([it])) for at, it in enumerate(plan.sets) for half in (0, 1)]
    yield 'reg offer_set; reg high; wire took_set; wire [31:0] set_data;'
    yield 'wire [6:0] set_word = {which[5:0], high};'
    words = ''
    for word, low, many in places:
        first, last = most - 8 * many + low, min(most - 8 * many + low + 31, most - 1)
        if first <= last:
            padded = (
                f"{{{31 - last + first}'d0, data[{last}:{first}]}}" if last - first < 31 else f'data[{last}:{first}]'
            )
            words += f'set_word == {word} ? {padded} : '
    yield f"assign set_data = {words}32'd0;"
    wide = (
        ' || '.join(f"which == 8'd{PARAMETER + at}" for at, (_, width) in enumerate(plan.sets) if width > 32) or "1'd0"
    )
    named = f"which >= 8'd{PARAMETER} && which < 8'd{PARAMETER + len(plan.sets)}"
    yield 'always @(posedge clk) begin'
    yield f"    offer_set <= aresetn && (offer_set ? !took_set || high : rx_done && left == 8'd1 && {named});"
    yield f'    high <= offer_set ? high && !took_set : {wide};'
    yield 'end'
    yield f"wire [{bits - 1}:0] set_address = {{set_word[{bits - 3}:0], 2'd0}};"


def frames(plan):
    """Transfers of the bytes that came: the number of a stream and its bytes, 64 and the number of a parameter and its
    value, 128 for the end, 129 for a tick."""
    most = most_bytes(plan)
    one = len(plan.sides) == 1
    free = ' && '.join(
        ['!offer_end', *['!offer_set'] * bool(plan.sets), *(f'!offer_{at}' for at in range(len(plan.sides)))]
    )
    yield f'reg [{8 * most - 1}:0] data; reg [7:0] left; reg [7:0] which; reg late; reg offer_end; reg tick;'
    yield from (f'reg offer_{at}; wire took_{at};' for at in range(len(plan.sides)))
    yield 'wire took_end;'
    if plan.sets:
        yield from writes(plan)
    yield f'wire free = {free};'
    yield 'always @(posedge clk) begin'
    yield '    late <= aresetn && (late || (rx_done && !free));'
    yield "    tick <= aresetn && rx_done && left == 8'd0 && rx_byte == 8'd129;"
    yield "    offer_end <= aresetn && (offer_end ? !took_end : rx_done && left == 8'd0 && rx_byte == 8'd128);"
    shifted = 'rx_byte' if most == 1 else f'{{rx_byte, data[{8 * most - 1}:8]}}'
    yield f"    if (rx_done && left != 8'd0) data <= {shifted};"
    yield "    if (rx_done && left == 8'd0) which <= rx_byte;"
    frames_of = [*enumerate(it.columns for it in plan.sides), *enumerate(([it] for it in plan.sets), PARAMETER)]
    sizes = ''.join(f"rx_byte == 8'd{at} ? 8'd{bytes_of(columns)} : " for at, columns in frames_of)
    yield f"    left <= !aresetn ? 8'd0 : !rx_done ? left : left != 8'd0 ? left - 8'd1 : {sizes}8'd0;"
    for at in range(len(plan.sides)):
        yield f"    offer_{at} <= aresetn && (offer_{at} ? !took_{at} : rx_done && left == 8'd1 && which == 8'd{at});"
    yield 'end'
    for at, it in enumerate(plan.sides):
        yield f'wire ready_{at}; assign took_{at} = ready_{at};'
    yield f'wire ready_end; assign took_end = {"ready_0 && !offer_0" if one else "ready_end"};'


def sender(plan, divide):
    """What leaves: a byte with the number of the result, 32 for a row, 64 where a further group was left out, 128 for
    the end; then the bytes of a row."""
    most = 1 + max(bytes_of(it.columns) for it in plan.results)
    yield f'reg [{8 * most - 1}:0] out; reg [7:0] tx_left; reg [3:0] tx_bits; reg [15:0] tx_wait; reg [9:0] frame;'
    yield "wire idle = aresetn && tx_left == 8'd0;"
    front = 'idle'
    for at, it in enumerate(plan.results):
        many = bytes_of(it.columns)
        yield f'wire valid_{at}; wire [{8 * many - 1}:0] data_{at}; wire [{many - 1}:0] keep_{at};'
        yield f'wire last_{at}; wire user_{at}; wire take_{at} = {front} && valid_{at};'
        front += f' && !valid_{at}'
    yield 'always @(posedge clk) begin'
    yield "    if (!aresetn) tx_left <= 8'd0;"
    for at, it in enumerate(plan.results):
        many = bytes_of(it.columns)
        head = f"{{data_{at}, last_{at}, user_{at}, keep_{at}[0], 5'd{at}}}"
        pad = f"{{{8 * (most - 1 - many)}'d0, {head}}}" if many < most - 1 else head
        yield f"    else if (take_{at}) begin out <= {pad}; tx_left <= keep_{at}[0] ? 8'd{1 + many} : 8'd1; end"
    yield "    else if (tx_bits == 4'd0 && tx_left != 8'd0) begin out <= out >> 8; tx_left <= tx_left - 8'd1; end"
    yield "    if (!aresetn) begin tx_bits <= 4'd0; tx <= 1'd1; end"
    yield "    else if (tx_bits == 4'd0) begin"
    yield "        tx <= 1'd1; tx_wait <= 16'd0;"
    yield "        if (tx_left != 8'd0) begin frame <= {1'd1, out[7:0], 1'd0}; tx_bits <= 4'd11; end"
    yield "    end else if (tx_wait != 16'd0) tx_wait <= tx_wait - 16'd1;"
    yield "    else begin tx <= frame[0]; frame <= {1'd1, frame[9:1]};"
    yield f"        tx_bits <= tx_bits - 4'd1; tx_wait <= 16'd{divide - 1}; end"
    yield 'end'


def connections(plan):
    """The ports of the wrapper."""
    yield from ('.aclk(clk)', '.aresetn(aresetn)')
    most = 8 * most_bytes(plan)
    if plan.sets:
        driven = {
            'awvalid': 'offer_set',
            'wvalid': 'offer_set',
            'awaddr': 'set_address',
            'wdata': 'set_data',
            'wstrb': "4'd15",
            'bready': "1'd1",
            'arvalid': "1'd0",
            'araddr': f"{address_bits(plan.sets)}'d0",
            'rready': "1'd1",
            'awready': 'took_set',
        }
        yield from (f'.s_axil_{name}({driven.get(name, "")})' for _, _, name in lite_ports(plan.sets))
    for at, it in enumerate(plan.sides):
        many, end = bytes_of(it.columns), ' || offer_end' if len(plan.sides) == 1 else ''
        yield f'.{it.line}_tvalid(offer_{at}{end})'
        yield f'.{it.line}_tready(ready_{at})'
        yield f'.{it.line}_tdata(data[{most - 1}:{most - 8 * many}])'
        if len(plan.sides) == 1:
            yield f'.{it.line}_tkeep({{{many}{{offer_{at}}}}})'
            yield f'.{it.line}_tlast(!offer_{at})'
    if len(plan.sides) > 1:
        yield from ('.s_axis_end_tvalid(offer_end)', '.s_axis_end_tready(ready_end)')
    yield from ['.tick(tick)'] * plan.ticks
    for at, it in enumerate(plan.results):
        names = ('valid', 'data', 'keep', 'last', 'user')
        yield from (f'.{it.line}_t{name}({name}_{at})' for name in names)
        yield f'.{it.line}_tready(take_{at})'
    yield from ('.overflow(overflow)', '.queue(queue)', '.lost(lost)')


def top(plan, pll, divide):
    """The text of the top."""
    lines = ['// The serial line of the board in front of the wrapper: README.txt says which bytes go over it.']
    lines += ['module top(input wire clk_in, input wire rx, output reg tx, output wire [7:0] led);']
    lines += [*clocking(pll), *receiver(divide), *frames(plan), *sender(plan, divide)]
    lines += ['wire overflow; wire queue; wire lost;']
    ports = ',\n'.join(f'    {it}' for it in connections(plan))
    lines += [f'axis__{plan.module.removeprefix("q__")} unit(', ports, ');']
    lines += ["assign led = {late, lost, queue, overflow, !idle, rx_bits != 4'd0, 1'd0, aresetn};", 'endmodule', '']
    return '\n'.join(lines)


def pins():
    """The pins of the board."""
    return ''.join(f'set_io {name} {pin}\n' for name, pin in PINS.items())
