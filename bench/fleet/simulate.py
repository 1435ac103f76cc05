"""One simulated run of the real gate, judged at its end; and the models beside it."""
import checks
import measures
import settings as given
from fleet import Fleet
from gate import Gate
from others import MODELS
from stream import Stream


def run_gate(program, name, settings):
    """The figures of the run, what the checks saw, what the gate cost on this machine; and the deliveries."""
    stream = Stream(settings)
    with Gate(program, given.gate_text(settings)) as gate:
        begun = gate.seconds()
        fleet = Fleet(settings, stream, gate, name)
        fleet.run()
        cost = gate.seconds() - begun
        lines, told, asked = gate.lines, gate.told.copy(), gate.asked.copy()
        evidence = checks.Evidence(settings, stream, gate, fleet.builds)
    shown = checks.judge_run(evidence, fleet)
    turned = checks.judge_turned(evidence)
    figures = measures.measured(name, settings, fleet, checks.use_of_builds(evidence), told, asked)
    untold, results = checks.results_of_failed(evidence)
    return figures | {
        "shown": shown,
        "turned": turned,
        "seconds": cost,
        "untold": untold,
        "results": results,
        "latencies": fleet.latencies,
        "queues": len(settings["queues"]),
    }, lines


def run_models(settings):
    stream = Stream(settings)
    for model in MODELS:
        run = model(settings, stream).run()
        yield measures.measured(model.name, settings, run, run.use)
