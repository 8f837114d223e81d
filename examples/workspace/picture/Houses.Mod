MODULE Houses;
(* Houses, each with a roof, a wall and a door. *)

IMPORT Points, Shapes;

TYPE
  House* = RECORD
    roof*: Shapes.Triangle;
    wall*, door*: Shapes.Rectangle
  END;

(* The top of the house is at x and y. *)
PROCEDURE Build*(VAR h: House; x, y, size: INTEGER);
BEGIN
  Points.Set(h.roof.place, x, y);
  h.roof.height := size;
  Points.Set(h.wall.place, x - size + 2, y + size);
  h.wall.width := 2 * size - 3;
  h.wall.height := size DIV 2 + 1;
  h.door.place := h.wall.place;
  Points.Move(h.door.place, 2, 1);
  h.door.width := 2;
  h.door.height := h.wall.height - 1
END Build;

END Houses.
