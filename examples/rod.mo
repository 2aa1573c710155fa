package Mechanics
  connector Flange
    Real s;
    flow Real f;
  end Flange;

  model Mass
    Flange flange;
    parameter Real m = 1.0;
    Real s, v;
  equation
    s = flange.s;
    v = der(s);
    m*der(v) = flange.f;
  end Mass;

  model Rod
    Flange left, right;
    parameter Real length = 1.0;
  equation
    right.s = left.s + length;
    0 = left.f + right.f;
  end Rod;

  model Force
    Flange flange;
    parameter Real f = 1.0;
  equation
    flange.f = -f;
  end Force;

  model Pushed "Two masses at the ends of a rigid rod, pushed by a force"
    Mass first(m = 2.0);
    Mass second(m = 3.0, s(stateSelect = StateSelect.prefer));
    Rod rod(length = 0.5);
    Force force(f = 10.0);
  equation
    connect(force.flange, first.flange);
    connect(first.flange, rod.left);
    connect(rod.right, second.flange);
  end Pushed;
end Mechanics;
