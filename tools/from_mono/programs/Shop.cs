using System;
using System.Collections.Generic;
using System.Threading;

/// A shop. Each session listens for new prices, and no session ever stops to. A cache keeps each page that was asked
/// for.
namespace Shop {
    public delegate void Priced(string article, long cents);

    public class PriceBus {
        public event Priced OnPriced;
        public int Listeners { get { return OnPriced == null ? 0 : OnPriced.GetInvocationList().Length; } }
        public void Tell(string article, long cents) { if (OnPriced != null) OnPriced(article, cents); }
    }

    public static class Cache {
        static readonly Dictionary<string, byte[]> pages = new Dictionary<string, byte[]>();
        public static byte[] Page(string name) {
            byte[] page;
            if (!pages.TryGetValue(name, out page)) pages[name] = page = new byte[1500];
            return page;
        }
        public static int Count { get { return pages.Count; } }
    }

    public class Session {
        readonly string customer;
        readonly Dictionary<string, long> basket = new Dictionary<string, long>();
        readonly byte[] page = new byte[2000];
        public int Served;

        public Session(string customer, PriceBus bus) {
            this.customer = customer;
            bus.OnPriced += Repriced;
        }

        void Repriced(string article, long cents) { if (basket.ContainsKey(article)) basket[article] = cents; }
        public void Put(string article, long cents) { basket[article] = cents; Served++; }
        public override string ToString() { return customer + " " + page.Length; }
    }

    public class Server {
        readonly PriceBus bus = new PriceBus();
        readonly Dictionary<string, Session> open = new Dictionary<string, Session>();
        public PriceBus Bus { get { return bus; } }

        public void Serve(string customer) {
            var session = new Session(customer, bus);
            open.Add(customer, session);
            session.Put("tea", 420);
            Cache.Page("/basket?of=" + customer);
            open.Remove(customer);
        }
    }

    static class Program {
        static void Main(string[] arguments) {
            int customers = arguments.Length > 0 ? int.Parse(arguments[0]) : 500;
            var server = new Server();
            for (int i = 0; i < customers; i++) server.Serve("customer " + i);
            Console.WriteLine(server.Bus.Listeners + " listeners, " + Cache.Count + " pages");
            if (arguments.Length > 1) Thread.Sleep(int.Parse(arguments[1]) * 1000);
            GC.KeepAlive(server);
        }
    }
}
