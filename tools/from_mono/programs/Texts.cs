using System;
using System.Collections.Generic;
using System.Text;
using System.Threading;

/// Texts and large arrays: what a report program keeps of its files.
namespace Texts {
    public class Report {
        public string Title;
        public string[] Lines;
        public StringBuilder Body = new StringBuilder();
        public int[] Lengths;
        public double[,] Table;
        public DateTime Made = DateTime.Now;
        public decimal Price = 1.5m;
        public object Boxed = 42;
    }

    static class Program {
        static readonly List<Report> reports = new List<Report>();
        static byte[] buffer = new byte[300000];
        static char[] letters = new char[100000];
        static object[] large = new object[20000];
        static string longest;

        static void Main(string[] arguments) {
            int count = arguments.Length > 0 ? int.Parse(arguments[0]) : 200;
            for (int i = 0; i < count; i++) {
                var report = new Report {
                    Title = "report " + i, Lines = new string[i % 50], Lengths = new int[i % 50],
                    Table = new double[3, i % 7],
                };
                for (int j = 0; j < report.Lines.Length; j++) {
                    report.Lines[j] = "line " + j + new string('.', j);
                    report.Lengths[j] = report.Lines[j].Length;
                    report.Body.Append(report.Lines[j]);
                }
                reports.Add(report);
                large[i * 17 % large.Length] = report;
            }
            longest = new string('x', 200000);
            Console.WriteLine(reports.Count + " reports, " + (buffer.Length + letters.Length + longest.Length));
            if (arguments.Length > 1) Thread.Sleep(int.Parse(arguments[1]) * 1000);
        }
    }
}
