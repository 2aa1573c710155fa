model Lift
  Real x, v, f, w;
equation
  der(x) = v;
  2.0*der(v) = f;
  x = sin(time);
  der(w) = f - w;
end Lift;
