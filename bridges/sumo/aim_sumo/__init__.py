"""A bridge between the intersection manager `aim` and the traffic simulator SUMO."""
