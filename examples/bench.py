"""A test bench in software: plugs a module, reads it over a bus that refuses, plans, provisions,
activates, and adds a data path while others stay up. Run it as PYTHONPATH=python python3
examples/bench.py, after tools/build-shared-library."""
import pathlib
import random

from dovecounter import (
    Activation,
    DataPath,
    Delays,
    Fault,
    Image,
    PathState,
    Provisioning,
    Reading,
    SimulatedModule,
    plan,
)

EXAMPLES = pathlib.Path(__file__).parent
GAUI_400_4, GAUI_100_2 = 0x4F, 0x0D  # HostInterfaceIDs of SFF-8024


def plug(name):
    """A module in software, of an image; each of its works takes some ticks."""
    image = Image.from_text((EXAMPLES / name).read_text().partition("---\n")[0])
    return SimulatedModule(image, Delays(apply=2, init=30, turn_on=10, turn_off=10, deinit=20))


def refusing(module, often, seed, watch=lambda: None):
    """A bus that refuses so many transactions of a hundred, and cuts some stores short."""
    chance = random.Random(seed)

    def transact(operation):
        watch()
        if chance.randrange(100) >= often:
            return module.transact(operation)
        if operation.is_store and chance.random() < 0.5:
            module.store(operation.device, operation.offset, operation.data[:1])
        module.tick()
        return False

    return transact


module = plug("add_800g_dr8.txt")


def wait(seconds):
    """A tick stands for 10 ms."""
    module.tick(round(seconds * 100))


bus = refusing(module, often=20, seed=1)
reading = Reading(most=32)
reading.run(bus, pause=wait)
image = reading.image
print("Applications", len(image.applications()), "halves", len(image.halves))

# Two paths of 100G carry traffic.
module.tick(100)
up = [lane for lane, state in enumerate(module.path_states, 1) if state == PathState.DPActivated]
print("up before", *up)
in_use = [DataPath(application=8, host=1, media=1), DataPath(application=8, host=3, media=2)]
best = plan(image, {GAUI_400_4: 400, GAUI_100_2: 100}, keep=in_use)
print("plan", best.weight, *((path.application, path.host, path.media) for path in best.paths))


def stay_up():
    """Looked at before each transaction."""
    assert all(module.path_states[lane - 1] == PathState.DPActivated for lane in up)


def carry_out(procedure, often):
    procedure.run(refusing(module, often, seed=2, watch=stay_up), pause=wait)
    stay_up()
    return procedure.steps


print("provisioned", carry_out(Provisioning(best), often=20), module.active.hex(" "))
print("activated", carry_out(Activation(best), often=40))
print(
    "up after",
    *(lane for lane, state in enumerate(module.path_states, 1) if state == PathState.DPActivated)
)

try:
    carry_out(Provisioning(best), often=100)
except Fault as fault:
    print("a dead bus:", fault, "-", fault.sentence)
