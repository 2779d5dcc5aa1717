using System;
using System.Collections.Generic;
using System.Runtime.CompilerServices;
using System.Runtime.InteropServices;
using System.Threading;

/// A map of towns and roads with all that a heap can have: cycles, generic classes, arrays of structs and of arrays,
/// closures, handles of each kind, weak references, ephemerons, finalisers, thread statics and a second thread.
namespace Map {
    public enum Surface : byte { Gravel, Asphalt }

    public struct Bend { public Town Near; public double Angle; public string Sign; }

    public class Place {
        public readonly int Number;
        public string Name;
        public Place(int number) { Number = number; Name = "place " + number; }
    }

    public class Town : Place {
        public readonly List<Road> Roads = new List<Road>();
        public Town Capital;
        public object Tag;
        public long People;
        public Town(int number) : base(number) { People = number * 1000L; }
    }

    public class Road {
        public readonly Town From, To;
        public Surface Surface;
        public Bend Sharpest;
        public Bend[] Bends;
        public Road(Town from, Town to) { From = from; To = to; }
    }

    public class Survey {
        public readonly Town Of;
        public Survey(Town of) { Of = of; }
        ~Survey() { Program.Ended++; }
    }

    public class Box<T> { public T Held; public Box<T> Next; }

    public static class Register {
        public static Town Capital;
        public static readonly Dictionary<int, Town> Towns = new Dictionary<int, Town>();
        [ThreadStatic] public static Town Last;
        public static Func<int, Town> Find;
        public static Bend Worst;
    }

    static class Program {
        public static int Ended;
        static readonly ConditionalWeakTable<Town, string> notes = new ConditionalWeakTable<Town, string>();
        static GCHandle strong, pinned, weak, weakLong;
        static Thread patrol;
        static readonly ManualResetEvent stop = new ManualResetEvent(false), ready = new ManualResetEvent(false);

        [MethodImpl(MethodImplOptions.NoInlining)]
        static void Build(int count) {
            var random = new Random(7);
            for (int i = 0; i < count; i++) Register.Towns[i] = new Town(i);
            Register.Capital = Register.Towns[0];
            foreach (var town in Register.Towns.Values) {
                town.Capital = Register.Capital;
                for (int i = random.Next(1, 6); i > 0; i--) {
                    var to = Register.Towns[random.Next(count)];
                    var road = new Road(town, to) { Surface = (Surface) random.Next(2) };
                    road.Bends = new Bend[random.Next(0, 4)];
                    for (int j = 0; j < road.Bends.Length; j++) {
                        var near = Register.Towns[random.Next(count)];
                        road.Bends[j] = new Bend { Near = near, Angle = j, Sign = j == 0 ? null : "bend " + j };
                    }
                    road.Sharpest = road.Bends.Length > 0 ? road.Bends[0] : new Bend();
                    town.Roads.Add(road); to.Roads.Add(road);
                }
                switch (town.Number % 8) {
                    case 0: town.Tag = new Survey(town); break;
                    case 1: town.Tag = new Box<Town> { Held = town, Next = new Box<Town>() }; break;
                    case 2: town.Tag = new Box<int> { Held = 7 }; break;
                    case 3: town.Tag = new Town[2, 3]; ((Town[,]) town.Tag)[1, 2] = town; break;
                    case 4: town.Tag = new[] { new[] { town }, null, new Town[3] }; break;
                    case 5: town.Tag = (Func<int>) (() => town.Number); break;
                    case 6: town.Tag = new WeakReference(town.Roads); break;
                    case 7: town.Tag = (object) new Bend { Near = town }; break;
                }
            }
            Register.Find = number => Register.Towns[number];
            Register.Worst = new Bend { Near = Register.Towns[1], Sign = "worst" };
            notes.Add(Register.Towns[2], "a note of " + count);
            strong = GCHandle.Alloc(new Town(-1));
            pinned = GCHandle.Alloc(new byte[4000], GCHandleType.Pinned);
            weak = GCHandle.Alloc(Register.Towns[3], GCHandleType.Weak);
            weakLong = GCHandle.Alloc(Register.Towns[4], GCHandleType.WeakTrackResurrection);
        }

        static void Patrol() {
            Register.Last = new Town(-2);
            var at = new Town(-3);
            ready.Set();
            stop.WaitOne();
            Console.WriteLine("patrol ends at " + at.Number);
        }

        static void Main(string[] arguments) {
            Build(arguments.Length > 0 ? int.Parse(arguments[0]) : 1000);
            patrol = new Thread(Patrol) { Name = "patrol" };
            patrol.Start();
            ready.WaitOne();
            Console.WriteLine(Register.Towns.Count + " towns");
            GC.Collect();
            if (arguments.Length > 1) Thread.Sleep(int.Parse(arguments[1]) * 1000);
            stop.Set();
        }
    }
}
