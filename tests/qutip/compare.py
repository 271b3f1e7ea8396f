#!/usr/bin/env python3
"""Compares what QuTiP reads in a text in OpenQASM 2.0 with what the listing beside it says.

Each argument is a folder with files NAME.qasm and NAME.listing. QuTiP (Debian: python3-qutip) reads the text; the listing is
decoded here. Compared are the numbers of qubits and bits, and in order each gate with its targets and controls, each measurement
with its qubit and its bit, each classical control with its bit and its value, and the outputs that the last line names. A listing
with one gate changed must show a difference. Exit status: 0 no difference, 1 a difference, 2 QuTiP is not there.
"""
import struct
import sys
import warnings
from pathlib import Path

warnings.simplefilter("ignore")
try:
    from qutip.qip.circuit import Measurement
    from qutip.qip.qasm import read_qasm
except ModuleNotFoundError as error:
    print(f"qutip: not installed ({error})")
    sys.exit(2)

# The kind of a Bit input, and QuTiP's names of the gates H, X, Z, S, T by their numbers.
BIT = 128
NAMES = ["SNOT", "X", "Z", "S", "T"]
CNOT, MEAS, BX, BZ, CCX = 5, 6, 7, 8, 11
# The slots of an entry.
SLOTS = 3


def decode(listing):
    """The kinds of the inputs, the gates with their slots, and the outputs."""
    inputs, gates, outputs = struct.unpack_from("<3H", listing)
    entries = inputs + gates
    kinds = listing[6:6 + entries]
    words = struct.unpack_from(f"<{SLOTS * entries + outputs}H", listing, 6 + entries)
    slots = [words[SLOTS * entry:SLOTS * (entry + 1)] for entry in range(inputs, entries)]
    return list(kinds[:inputs]), list(zip(kinds[inputs:], slots)), list(words[SLOTS * entries:])


def meant(inputs, gates, outputs):
    """What the listing says, in the form of `read`."""
    qubits = {}
    for line, kind in enumerate(inputs):
        if kind != BIT:
            qubits[line] = len(qubits)
    line_of = list(range(len(inputs)))
    measured = {line for line, kind in enumerate(inputs) if kind == BIT}
    operations = []
    for kind, (first, second, third) in gates:
        a = line_of[first]
        line_of.append(a)
        if kind == MEAS:
            operations.append(("measure", qubits[a], a))
            measured.add(a)
            continue
        if kind < CNOT:
            operations.append((NAMES[kind], [qubits[a]], None, None, None))
            continue
        b = line_of[second]
        line_of.append(b)
        if kind == CNOT:
            operations.append(("CNOT", [qubits[b]], [qubits[a]], None, None))
        elif kind == CCX:
            c = line_of[third]
            line_of.append(c)
            operations.append(("TOFFOLI", [qubits[c]], [qubits[a], qubits[b]], None, None))
        else:
            operations.append(("X" if kind == BX else "Z", [qubits[b]], None, [a], 1))
    named = [("c" if line_of[wire] in measured else "q") + str(line_of[wire]) for wire in outputs]
    return len(qubits), len(inputs), operations, named


def read(text):
    """What QuTiP reads, and the outputs that the last line names."""
    circuit = read_qasm(text, strmode=True)
    operations = []
    for gate in circuit.gates:
        if isinstance(gate, Measurement):
            (qubit,) = gate.targets
            operations.append(("measure", qubit, gate.classical_store))
        else:
            operations.append((gate.name, gate.targets, gate.controls, gate.classical_controls, gate.control_value))
    last = text.splitlines()[-1].split()
    assert last[:2] == ["//", "out"], "the last line names no outputs"
    return circuit.N, circuit.num_cbits or 0, operations, last[2:]


def with_fault(gates, at):
    """The gates with the one at this place changed."""
    kind, slots = gates[at]
    first, second, third = slots
    changed = {
        CNOT: (CNOT, (second, first, third)),
        MEAS: (0, slots),
        BX: (BZ, slots),
        BZ: (BX, slots),
        CCX: (CCX, (first, third, second)),
    }
    return gates[:at] + [changed.get(kind, ((kind + 1) % 5, slots))] + gates[at + 1:]


def main(folders):
    texts = operations = faults = differences = 0
    for folder in folders:
        for path in sorted(Path(folder).glob("*.qasm")):
            found = read(path.read_text(encoding="ascii"))
            inputs, gates, outputs = decode(path.with_suffix(".listing").read_bytes())
            texts += 1
            operations += len(gates)
            if found != meant(inputs, gates, outputs):
                differences += 1
                print(f"qutip: {path}: what is read is not what the listing says")
            if gates:
                faults += 1
                changed = with_fault(gates, texts % len(gates))
                if found[2] == meant(inputs, changed, outputs)[2]:
                    differences += 1
                    print(f"qutip: {path}: a changed gate is not noticed")
    print(f"qutip: {texts} texts, {operations} gates, {faults} changed gates noticed, {differences} differences")
    return 1 if differences or not texts else 0


if __name__ == "__main__":
    sys.exit(main(sys.argv[1:]))
