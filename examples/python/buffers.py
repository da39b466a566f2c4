"""How many frame buffers does a camera line need? Builds its plan for one buffer, two and so on, and checks each.

  PYTHONPATH=python python3 examples/python/buffers.py
"""
from cundvrest import Plan, Refused

STAGES = {'capture': 'captured', 'correct': 'corrected', 'measure': 'measured', 'readout': 'read'}


def camera(frames, buffers):
    """Each stage waits for the one before; capture fills a buffer again once the readout has freed it."""
    plan = Plan()
    for stage in STAGES:
        plan.queue(stage)
    for stage, done in STAGES.items():
        plan.semaphore(done, owner=stage)
    for k in range(buffers):
        plan.buffer(f'frame{k}', size=8_294_400)
    for frame in range(frames):
        buffer, wait = f'frame{frame % buffers}', {'read': frame + 1 - buffers} if frame >= buffers else {}
        for stage, done in STAGES.items():
            plan.add(stage, wait, use=buffer, free=buffer if stage == 'readout' else (), signal={done: frame + 1})
            wait = {done: frame + 1}
    return plan


for buffers in range(1, 6):
    passed = camera(32, buffers).check()
    print(f'{buffers} buffers: 32 frames in {max(passed.columns()) + 1} steps')

try:
    camera(32, 4).with_operation(36, waits=()).check()
except Refused as refused:
    print(f'4 buffers, without the wait of operation 36: {refused}')
