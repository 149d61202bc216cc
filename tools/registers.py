"""The text of a register file with an AXI4-Lite port for the parameters of a schema: what tools/axis --registers puts
beside the module."""

OKAY, SLVERR = "2'b00", "2'b10"


def words_of(sets):
    """The words of 32 bits: the number of each, its parameter, and which bits of it the word has."""
    for at, (name, width) in enumerate(sets):
        yield 2 * at, name, 0, min(width, 32)
        if width > 32:
            yield 2 * at + 1, name, 32, width - 32


def address_bits(sets):
    """The bits of an address: a parameter has eight bytes, and the word of the state is behind them."""
    return (8 * len(sets) + 4 - 1).bit_length()


def lite_ports(sets):
    """The lines of AXI4-Lite: direction, bits and name, as the register file has them."""
    bits = address_bits(sets)
    yield from (('input', 1, 'awvalid'), ('output', 1, 'awready'), ('input', bits, 'awaddr'))
    yield from (('input', 1, 'wvalid'), ('output', 1, 'wready'), ('input', 32, 'wdata'), ('input', 4, 'wstrb'))
    yield from (('output', 1, 'bvalid'), ('input', 1, 'bready'), ('output', 2, 'bresp'))
    yield from (('input', 1, 'arvalid'), ('output', 1, 'arready'), ('input', bits, 'araddr'))
    yield from (('output', 1, 'rvalid'), ('input', 1, 'rready'), ('output', 32, 'rdata'), ('output', 2, 'rresp'))


def declared(way, bits, name, kind='wire'):
    """A port as Verilog declares it."""
    return f'{way} {kind} {f"[{bits - 1}:0] " if bits > 1 else ""}{name}'


def storing(sets):
    """What a write does. The low word of a parameter gives it its next value, with the high word that was written last."""
    wide = {name for _, name, low, _ in words_of(sets) if low}
    for number, name, low, width in words_of(sets):
        yield f"    if (write && awaddr[{address_bits(sets) - 1}:2] == {number}) begin"
        stored = f'high__{name}' if low else f'next__{name}'
        for lane in range(-(-width // 8)):
            first, last = 8 * lane, min(8 * lane + 7, width - 1)
            yield f'        if (wstrb[{lane}]) {stored}[{last}:{first}] <= wdata[{last}:{first}];'
        if not low:
            if name in wide:
                yield f'        next__{name}[{dict(sets)[name] - 1}:32] <= high__{name};'
            yield f'        has__{name} <= 1;'
        yield '    end'


def register_file(module, sets):
    """The module: parameter K stands at byte 8 K, the bits from 32 on at 8 K + 4, and the state behind all of them."""
    bits, numbers = address_bits(sets), [number for number, *_ in words_of(sets)]
    ports = ['input wire aclk', 'input wire aresetn', 'input wire take', 'output reg complete']
    ports += [declared(way, many, name, 'reg' if way == 'output' else 'wire') for way, many, name in lite_ports(sets)]
    ports += [declared('output', width, name, 'reg') for name, width in sets]
    yield f'module {module}('
    yield ',\n'.join(f'    {it}' for it in ports)
    yield ');'
    yield from (f'reg [{width - 1}:0] next__{name}; reg has__{name};' for name, width in sets)
    yield from (f'reg [{width - 1}:0] high__{name};' for _, name, low, width in words_of(sets) if low)
    known = ' || '.join(f'awaddr[{bits - 1}:2] == {number}' for number in numbers)
    yield from (
        'reg waits; wire write = awready && awvalid && wready && wvalid; wire read = arready && arvalid;',
        f'wire known = {known};',
        'always @(posedge aclk) begin',
        '    awready <= aresetn && awvalid && wvalid && !awready && !bvalid;',
        '    wready <= aresetn && awvalid && wvalid && !awready && !bvalid;',
        '    bvalid <= aresetn && (write || (bvalid && !bready));',
        f'    if (write) bresp <= known ? {OKAY} : {SLVERR};',
        '    arready <= aresetn && arvalid && !arready && !rvalid;',
        '    rvalid <= aresetn && (read || (rvalid && !rready));',
        '    if (read) begin',
        f'        rresp <= {OKAY};',
        f'        case (araddr[{bits - 1}:2])',
    )
    for number, name, low, width in words_of(sets):
        word = f'high__{name}' if low else f'next__{name}[{width - 1}:0]'
        yield f'        {number}: rdata <= {word if width == 32 else f"{{{32 - width}" + chr(39) + f"d0, {word}}}"};'
    yield from (
        f"        {2 * len(sets)}: rdata <= {{30'd0, waits, complete}};",
        f"        default: begin rdata <= 32'd0; rresp <= {SLVERR}; end",
        '        endcase',
        '    end',
        *storing(sets),
        '    waits <= aresetn && ((write && known) || (waits && !take));',
        f'    complete <= aresetn && {" && ".join(f"has__{name}" for name, _ in sets)};',
        '    if (take) begin',
        *(f'        {name} <= next__{name};' for name, _ in sets),
        '    end',
        '    if (!aresetn) begin',
        *(f"        has__{name} <= 0; next__{name} <= {width}'d0;" for name, width in sets),
        *(f"        high__{name} <= {width}'d0;" for _, name, low, width in words_of(sets) if low),
        '    end',
        'end',
        'endmodule',
    )
