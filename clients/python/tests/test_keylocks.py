"""Locks by key, over the model."""

import asyncio
import threading
import unittest
import zlib

import paths  # noqa: F401
from serving import WithFolder

import femem
from femem import Client, aio
from femem.patterns import Locks


class KeyLocks(WithFolder):
    def setUp(self):
        super().setUp()
        self.server()

    def client(self, session):
        client = Client(self.path, session)
        self.addCleanup(client.close)
        return client

    def test_two_hundred_jobs_have_a_lock_each_in_one_array(self):
        inside, most = [0] * 200, [0]
        ready = threading.Barrier(4)

        def work(session):
            with Client(self.path, session) as client:
                locks = Locks(client, "orders")
                ready.wait()
                for job in range(200):
                    with locks.of(f"order {job}"):
                        inside[job] += 1
                        most[0] = max(most[0], inside[job])
                        inside[job] -= 1

        threads = [threading.Thread(target=work, args=(k,)) for k in range(1, 5)]
        for thread in threads:
            thread.start()
        for thread in threads:
            thread.join(60)
        self.assertEqual((most, sum(inside)), ([1], 0))
        array = self.client(9).find("orders")
        self.assertEqual(array.length, 3 + 2 * (4096 + 512))

    def test_a_key_has_the_word_that_its_hash_names(self):
        """By docs/patterns.md: CRC-32 of the key, modulo the capacity."""
        self.assertEqual(zlib.crc32(b"123456789"), 0xCBF43926)
        one = self.client(1)
        locks = Locks(one, "orders", 1000)
        with locks.of("123456789"):
            self.assertEqual(one.readff(one.find("orders"), 3 + 2 * (0xCBF43926 % 1000), nowait=True), 1)
        self.assertEqual(locks.place_of(b"123456789"), 0xCBF43926 % 1000)

    def test_whose_a_lock_is(self):
        one, two = self.client(1), self.client(2)
        mine, yours = Locks(one, "orders", 16).of("a"), Locks(two, "orders", 16).of("a")
        self.assertTrue(mine.acquire(timeout=1))
        self.assertEqual((yours.owner(), yours.try_acquire(), yours.acquire(timeout=0.1)), (1, False, False))
        with self.assertRaises(femem.NotOwner):
            yours.release()
        first = mine.generation
        mine.release()
        self.assertTrue(yours.acquire(timeout=1))
        self.assertGreater(yours.generation, first)
        with self.assertRaises(femem.OtherPattern):
            Locks(one, "orders", 17).of("a").try_acquire()

    def test_keys_that_share_a_word_wait_for_each_other(self):
        one, two = self.client(1), self.client(2)
        locks, others = Locks(one, "orders", 1), Locks(two, "orders", 1)
        self.assertTrue(locks.shares("a", "b"))
        with locks.of("a"):
            self.assertFalse(others.of("b").acquire(timeout=0.1))
        self.assertTrue(others.of("b").try_acquire())

    def test_an_absent_owner_loses_its_lock_and_nobody_else_does(self):
        gone, there, one = Client(self.path, 1), self.client(2), self.client(3)
        for client, key in ((gone, "a"), (there, "b")):
            Locks(client, "orders", 64).of(key).acquire()
        lost = Locks(gone, "orders", 64).of("a")
        gone.close()
        mine = Locks(one, "orders", 64).of("a")
        self.assertTrue(mine.acquire(timeout=30, takeover_after=0.3))
        self.assertEqual((mine.broke, mine.owner(), Locks(one, "orders", 64).of("b").owner()), (1, 3, 2))
        back = self.client(1)
        again = Locks(back, "orders", 64).of("a")
        with self.assertRaises(femem.NotOwner):
            again.release()
        self.assertFalse(again.try_acquire())
        self.assertEqual(mine.owner(), 3)
        mine.release()
        self.assertTrue(again.acquire(timeout=5))
        self.assertFalse(lost is again)

    def test_a_lock_without_spares_goes_with_its_array(self):
        one, two = self.client(1), self.client(2)
        locks = Locks(one, "orders", 8)  # one spare
        other = Locks(two, "orders", 8).of("other")
        self.assertTrue(other.acquire(timeout=1))
        array = one.find("orders").id
        self.assertTrue(locks.of("a").break_())
        self.assertEqual((one.find("orders").id, other.owner()), (array, 2))
        self.assertTrue(locks.of("a").break_())
        with self.assertRaises(femem.NotOwner):
            other.release()
        self.assertTrue(other.acquire(timeout=1))
        self.assertGreater(one.find("orders").id, array)

    def test_a_lock_is_broken_where_it_is(self):
        """By a client that does not know yet that it was taken over before."""
        one, two = self.client(1), self.client(2)
        self.assertTrue(Locks(one, "orders", 64).of("a").acquire(timeout=1))
        mine = Locks(two, "orders", 64).of("a")
        self.assertEqual((mine.break_(), mine.acquire(timeout=1)), (True, True))
        lock = Locks(self.client(3), "orders", 64).of("a")
        self.assertEqual((lock.break_(), lock.owner()), (True, None))
        with self.assertRaises(femem.NotOwner):
            mine.release()

    def test_a_process_adopts_its_lock(self):
        first = Client(self.path, 1)
        Locks(first, "orders", 64).of("a").acquire()
        first.close()
        lock = Locks(self.client(1), "orders", 64).of("a")
        self.assertTrue(lock.acquire(timeout=1))
        self.assertTrue(lock.adopted)
        lock.release()
        self.assertFalse(lock.locked())

    def test_asyncio(self):
        async def work():
            async with aio.AsyncClient(self.path, 7) as client:
                locks = aio.Locks(client, "orders", 64)
                async with locks.of("a"):
                    self.assertEqual(await locks.of("a").owner(), 7)
                self.assertFalse(await locks.of("a").locked())

        asyncio.run(work())


if __name__ == "__main__":
    unittest.main()
