MODULE Shapes;
(* Shapes: where they are, and which points they cover. *)

IMPORT Points;

CONST
  (* 355 / 113 is close to pi. *)
  PiAbove = 355;
  PiBelow = 113;

TYPE
  Shape* = RECORD place*: Points.Point END;

  (* Its place is its upper left corner. *)
  Rectangle* = RECORD (Shape) width*, height*: INTEGER END;

  (* Its place is its centre. *)
  Circle* = RECORD (Shape) radius*: INTEGER END;

  (* Its place is its top. Each row is by two points wider than the one above. *)
  Triangle* = RECORD (Shape) height*: INTEGER END;

PROCEDURE Covers*(VAR s: Shape; p: Points.Point): BOOLEAN;
  VAR dx, dy: INTEGER; inside: BOOLEAN;
BEGIN
  dx := p.x - s.place.x;
  dy := p.y - s.place.y;
  IF s IS Rectangle THEN
    inside := (0 <= dx) & (dx < s(Rectangle).width) & (0 <= dy) & (dy < s(Rectangle).height)
  ELSIF s IS Circle THEN
    inside := dx * dx + dy * dy <= s(Circle).radius * s(Circle).radius
  ELSIF s IS Triangle THEN
    inside := (ABS(dx) <= dy) & (dy < s(Triangle).height)
  ELSE
    inside := FALSE
  END
  RETURN inside
END Covers;

PROCEDURE Area*(VAR s: Shape): INTEGER;
  VAR area: INTEGER;
BEGIN
  IF s IS Rectangle THEN
    area := s(Rectangle).width * s(Rectangle).height
  ELSIF s IS Circle THEN
    area := s(Circle).radius * s(Circle).radius * PiAbove DIV PiBelow
  ELSIF s IS Triangle THEN
    area := s(Triangle).height * s(Triangle).height
  ELSE
    area := 0
  END
  RETURN area
END Area;

END Shapes.
