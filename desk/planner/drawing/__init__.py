"""Pictures of days: what each row has, and how it is drawn on a terminal, as an SVG picture, or as an HTML page."""
