model Wall "A room behind a wall of layers"
  import Thermal.*;
  parameter Integer n = 2;
  parameter Real G = 0.5;
  Store room(C = 2.0);
  Layer layer[n](each G = n*G);
  Outside outside(T = 263.15);
equation
  connect(room.port, layer[1].a);
  for k in 1:n - 1 loop
    connect(layer[k].b, layer[k + 1].a);
  end for;
  connect(layer[n].b, outside.port);
end Wall;
