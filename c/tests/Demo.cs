// A walk through the classes of System.Transactions' shape: Demo.exe FILE. Status 1 where anybody
// hears something else than is expected. At the end it prints how long a commit takes.
using System;
using System.Collections.Generic;
using System.Diagnostics;
using Wirtozhak.Transactions;

// Says yes or no to what it is asked, and writes down what it hears.
class Item : ISinglePhaseNotification
{
    readonly string name;
    readonly bool refuses;
    readonly List<string> heard;

    public Item(string name, bool refuses, List<string> heard)
    {
        this.name = name;
        this.refuses = refuses;
        this.heard = heard;
    }

    void Hear(string word)
    {
        if (heard != null) heard.Add(name + " " + word);
    }

    public void Prepare(PreparingEnlistment preparingEnlistment)
    {
        Hear("prepare");
        if (refuses) preparingEnlistment.ForceRollback();
        else preparingEnlistment.Prepared();
    }

    public void SinglePhaseCommit(SinglePhaseEnlistment singlePhaseEnlistment)
    {
        Hear("single");
        if (refuses) singlePhaseEnlistment.Aborted();
        else singlePhaseEnlistment.Committed();
    }

    public void Commit(Enlistment enlistment)
    {
        Hear("commit");
        enlistment.Done();
    }

    public void Rollback(Enlistment enlistment)
    {
        Hear("rollback");
        enlistment.Done();
    }

    public void InDoubt(Enlistment enlistment)
    {
        Hear("in doubt");
        enlistment.Done();
    }
}

static class Demo
{
    static readonly List<string> heard = new List<string>();

    static void Fail(string why)
    {
        Console.WriteLine(why);
        Environment.Exit(1);
    }

    // What was heard since the last time is this.
    static void Heard(string what, params string[] expected)
    {
        string found = string.Join(", ", heard.ToArray());
        string wanted = string.Join(", ", expected);
        Console.WriteLine(what + ": " + found);
        if (found != wanted) Fail("It should be: " + wanted);
        heard.Clear();
    }

    static void EnlistVolatile(string name, bool refuses)
    {
        Transaction.Current.EnlistVolatile(new Item(name, refuses, heard), EnlistmentOptions.None);
    }

    static void EnlistDurable(uint resourceManager, string name, bool refuses)
    {
        Transaction.Current.EnlistDurable(resourceManager, new Item(name, refuses, heard),
                                          EnlistmentOptions.None);
    }

    static void AllCommit()
    {
        using (var scope = new TransactionScope())
        {
            EnlistVolatile("cache", false);
            EnlistDurable(1, "one", false);
            EnlistDurable(2, "two", false);
            scope.Complete();
        }
        Heard("a commit", "cache prepare", "one prepare", "two prepare", "cache commit",
              "one commit", "two commit");
    }

    static void OneRefuses()
    {
        try
        {
            using (var scope = new TransactionScope())
            {
                EnlistDurable(1, "one", false);
                EnlistDurable(2, "two", true);
                scope.Complete();
            }
            Fail("A veto, and no exception.");
        }
        catch (TransactionAbortedException)
        {
            Heard("a veto", "one prepare", "two prepare", "one rollback");
        }
    }

    static void OneDurableAlone()
    {
        using (var scope = new TransactionScope())
        {
            EnlistDurable(1, "one", false);
            scope.Complete();
        }
        Heard("a single phase", "one single");
    }

    static void NotComplete()
    {
        using (new TransactionScope()) EnlistVolatile("cache", false);
        Heard("a scope that isn't complete", "cache rollback");
        if (Transaction.Current != null) Fail("A transaction is left.");
    }

    // The inner scope joins the transaction of the outer one, and isn't complete.
    static void InnerNotComplete()
    {
        try
        {
            using (var outer = new TransactionScope())
            {
                EnlistVolatile("cache", false);
                using (new TransactionScope())
                {
                }
                outer.Complete();
            }
            Fail("The inner scope isn't complete, and no exception.");
        }
        catch (TransactionAbortedException)
        {
            Heard("an inner scope that isn't complete", "cache rollback");
        }
    }

    static void TimeOut()
    {
        using (var transaction = new CommittableTransaction(TimeSpan.FromSeconds(30)))
        {
            transaction.EnlistVolatile(new Item("cache", false, heard), EnlistmentOptions.None);
            transaction.Tick(TimeSpan.FromSeconds(30));
            Heard("a timeout", "cache rollback");
            if (transaction.Status != TransactionStatus.Aborted) Fail("It hasn't aborted.");
        }
    }

    static void Identifiers()
    {
        using (var one = new CommittableTransaction())
        using (var other = new CommittableTransaction())
        {
            if (one.DistributedIdentifier != one.DistributedIdentifier) Fail("It has two.");
            if (one.DistributedIdentifier == other.DistributedIdentifier) Fail("Both have one.");
            one.Rollback();
            other.Rollback();
        }
    }

    static void LocalCommit()
    {
        using (var transaction = new CommittableTransaction())
        {
            transaction.EnlistVolatile(new Item("a", false, null), EnlistmentOptions.None);
            transaction.EnlistVolatile(new Item("b", false, null), EnlistmentOptions.None);
            transaction.Commit();
        }
    }

    // The least of some rounds, since the machine has other work too, without the log's syncs.
    static void Measure()
    {
        const int Rounds = 5, Times = 5000;
        double least = double.MaxValue;
        for (int round = 0; round < Rounds; round++)
        {
            TransactionManager.AtDisk.Reset();
            var watch = Stopwatch.StartNew();
            for (int n = 0; n < Times; n++) LocalCommit();
            TimeSpan took = watch.Elapsed - TransactionManager.AtDisk.Elapsed;
            least = Math.Min(least, took.TotalMilliseconds * 1000 / Times);
        }
        Console.WriteLine("a local commit of two volatiles: {0:F2} us", least);
    }

    static int Main(string[] arguments)
    {
        TransactionManager.Open(arguments[0], true);
        TransactionManager.RecoveryComplete(1);
        TransactionManager.RecoveryComplete(2);
        TransactionManager.Start();
        AllCommit();
        OneRefuses();
        OneDurableAlone();
        NotComplete();
        InnerNotComplete();
        TimeOut();
        Identifiers();
        Measure();
        TransactionManager.Close();
        return 0;
    }
}
