"""The rover's day, on which the drive takes 68 minutes."""
from pathlib import Path
import stnu
rover = Path("examples/rover")
print("in the cold season", stnu.why(rover / "variant.stnu"))
print("images at most", stnu.deadline(rover / "plan.stnu", "sunrise", "images").moments, "after sunrise")
with stnu.Execution(rover / "plan.stnu") as day:
    arrival = None
    while day.due is not None:
        is_there = arrival is not None and arrival <= day.due
        acts = day.at(arrival, "arrive") if is_there else day.at(day.due)
        arrival = None if is_there else arrival
        for moment, point in acts:
            print(moment, point)
            arrival = moment + 68 if point == "leave" else arrival
    day.done()
