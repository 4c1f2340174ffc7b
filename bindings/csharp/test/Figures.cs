using System;
using System.IO;
using System.Linq;
using System.Threading;
using Odfilter;

/// <summary>What calls take of the processor and of a thread's stack.</summary>
internal static partial class Tests
{
    /// <summary>How many KiB of stack a thread has that takes the deepest filters.</summary>
    private const int StackKib = 256;

    private static string Repeated(string text, int times)
    {
        return string.Concat(Enumerable.Repeat(text, times));
    }

    private static void ChecksOfDepth()
    {
        var open = string.Concat(Enumerable.Range(0, 64).Select(number => "Tags/any(x" + number + ":"));
        var deepest = new[]
        {
            Repeated("- ", 4090) + "ID eq 1", Repeated("not ", 4090) + "Active",
            Repeated("Active in (true,false or true and true eq ", 64) + "Active" + Repeated(")", 64),
            open + "x0 eq Name" + Repeated(")", 64),
        };
        var codes = new string[deepest.Length];
        var thread = new Thread(() =>
        {
            for (var number = 0; number < deepest.Length; number++)
            {
                codes[number] = Judged(deepest[number]);
            }
        }, StackKib << 10);
        thread.Start();
        thread.Join();
        That("the deepest filters", string.Join(" ", codes) == "True True True TooCostly", string.Join(" ", codes));
        Console.WriteLine("figure: " + StackKib + " KiB of a thread's stack for the deepest filters");
    }

    private static string Judged(string text)
    {
        using (var filter = Item().Check(text))
        using (var judge = filter.NewJudge(bound: 1000))
        {
            if (filter.Canonical.Length < 500 || filter.Explanation.Length < 500)
            {
                return "short";
            }
            try
            {
                return judge.Verdict(Row(1, "null", true)).ToString();
            }
            catch (ODataException error)
            {
                return error.Code;
            }
        }
    }

    private static void Figures()
    {
        var type = Item();
        var judge = type.Check("Active and contains(Name,'a')").NewJudge();
        var text = System.Text.Encoding.UTF8.GetBytes(Row(1, "\"abc\"", true));
        Figure("a row of " + text.Length + " bytes", 200000, () => judge.Verdict(text));
        var filter = "Active and ID gt 1 and contains(Name,'abc') or ID in (1,2,3)";
        Figure("a check of " + filter.Length + " bytes", 20000, () => type.Check(filter).Dispose());
    }

    private static void Figure(string name, int times, Action call)
    {
        for (var warm = 0; warm < times / 10; warm++)
        {
            call();
        }
        var begun = Nanoseconds();
        for (var time = 0; time < times; time++)
        {
            call();
        }
        var took = (Nanoseconds() - begun) / 1000.0 / times;
        That(name, took < 100, took);
        Console.WriteLine("figure: " + name + " takes " + took.ToString("0.00") + " us of the processor");
    }

    /// <summary>How long this thread has had a processor.</summary>
    private static long Nanoseconds()
    {
        return long.Parse(File.ReadAllText("/proc/thread-self/schedstat").Split(' ')[0]);
    }
}
