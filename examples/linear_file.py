"""A driver that shows a module as one long file, as SONiC's xcvr_eeprom does: read(offset, size)
and write(offset, size, data), with the lower half at 0 and page P at 128 * (P + 1). Such a driver
selects pages by itself, so the bus here keeps the selection that a procedure asks for. Run it as
PYTHONPATH=python python3 examples/linear_file.py, after tools/build-shared-library."""
import pathlib

from dovecounter import Activation, Delays, Image, Provisioning, Reading, SimulatedModule, plan

SELECTION = 126  # the bytes of bank and page


class LinearBus:
    """A bus of Dovecounter over such a driver, for a module without further banks."""

    def __init__(self, driver):
        self.driver = driver
        self.selection = bytearray(2)

    def transact(self, operation):
        """The reply: bytes, True, or False for a refusal."""
        place = operation.offset - SELECTION
        if place in (0, 1):
            end = place + operation.count
            if not operation.is_store:
                return bytes(self.selection[place:end])
            self.selection[place:end] = operation.data
            if self.driver.read_eeprom(128 * (self.selection[1] + 1), 1) is None:
                self.selection[:] = bytes(2)  # as a module does if it lacks the page
            return True
        offset = operation.offset + (128 * self.selection[1] if operation.offset >= 128 else 0)
        if operation.is_store:
            return bool(self.driver.write_eeprom(offset, operation.count, operation.data))
        data = self.driver.read_eeprom(offset, operation.count)
        return False if data is None else bytes(data)


class SimulatedDriver:
    """The driver, over a module in software. It selects page 00h again after each access."""

    def __init__(self, module):
        self.module = module

    def read_eeprom(self, offset, size):
        return self._at(offset, lambda address: self.module.fetch(0xA0, address, size))

    def write_eeprom(self, offset, size, data):
        return self._at(offset, lambda address: self.module.store(0xA0, address, data[:size]))

    def _at(self, offset, access):
        page = max(0, offset // 128 - 1)
        self.module.store(0xA0, SELECTION, bytes([0, page]))
        found = (
            access(offset - 128 * page)
            if self.module.fetch(0xA0, SELECTION + 1, 1) == bytes([page])
            else None
        )
        self.module.store(0xA0, SELECTION, bytes(2))
        self.module.tick()
        return found


text = (pathlib.Path(__file__).parent / "qsfp_dd_400g_dr4.txt").read_text()
module = SimulatedModule(Image.from_text(text), Delays(init=20, turn_on=20))
bus = LinearBus(SimulatedDriver(module))


def wait(seconds):
    """In place of time.sleep, which a real module is given: a tick stands for 10 ms."""
    module.tick(round(seconds * 100))


reading = Reading()
reading.run(bus.transact, pause=wait)
best, patience = plan(reading.image, {0x11: 400, 0x0D: 101}), reading.image.patience()
for procedure in (Provisioning(best, patience), Activation(best, patience)):
    procedure.run(bus.transact, pause=wait)
    print(type(procedure).__name__, "took", procedure.steps, "operations")
print("active", module.active.hex(" "))
print("lane 1", module.path_states[0].name)
