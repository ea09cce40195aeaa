"""Which of three registered names are like LANE? Then LANES is withdrawn, and added under another id. examples/c/lane.c and examples/rust/lane.rs
print the same.

  bash tools/library
  PKG_CONFIG_PATH=target/library PYTHONPATH=python python3 examples/python/lane.py
"""
from rushgirdle import Index, Refusal

pools = Index.build({10: 'LANE', 11: 'LANES', 12: 'PLANE'})


def look_up(query, allowance):
    said = f'{query}, Dice 8/13, allowance {allowance}: number'
    try:
        found = pools.search(query, 'dice', '8/13', allowance)
    except Refusal as refusal:
        print(said, refusal.number)
        print(f'rows 0 touches {refusal.touches} threshold 0/0')
        return
    print(said, 0)
    for row in found:
        print(f'id {row.id} shared {row.shared} size {row.size} least {row.least}')
    print(f'rows {len(found)} touches {found.touches} threshold {found.threshold}')


def change(said, call, *taken):
    number = 0
    try:
        call(*taken)
    except Refusal as refusal:
        number = refusal.number
    print(f'{said}: number {number}')


look_up('LANE', 15)
look_up('LANE', 14)
change('withdraw 11', pools.withdraw, 11)
change('add LANES under 13', pools.add, 13, 'LANES')
look_up('LANE', 15)
change('withdraw 11', pools.withdraw, 11)
