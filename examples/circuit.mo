package Electrical
  connector Pin
    Real v(unit = "V");
    flow Real i(unit = "A");
  end Pin;

  partial model OnePort
    Pin p, n;
    Real v, i;
  equation
    v = p.v - n.v;
    0 = p.i + n.i;
    i = p.i;
  end OnePort;

  model Resistor
    extends OnePort;
    parameter Real R = 1.0;
  equation
    v = R*i;
  end Resistor;

  model Capacitor
    extends OnePort;
    parameter Real C = 1.0;
  equation
    i = C*der(v);
  end Capacitor;

  model Source
    extends OnePort;
    parameter Real V = 1.0;
  equation
    v = V;
  end Source;

  model Ground
    Pin p;
  equation
    p.v = 0;
  end Ground;

  model Charging "A capacitor that is charged over a resistor"
    Source source(V = 12.0);
    Resistor resistor(R = 100.0);
    Capacitor capacitor(C = 1e-3);
    Ground ground;
  equation
    connect(source.p, resistor.p);
    connect(resistor.n, capacitor.p);
    connect(capacitor.n, source.n);
    connect(source.n, ground.p);
  end Charging;
end Electrical;
