//! The calls for an executor: a flash that takes its time and interrupts when it is done, and an executor that sleeps until then.
use std::convert::Infallible;
use std::future::Future;
use std::pin::pin;
use std::sync::{Arc, Mutex, MutexGuard};
use std::task::{Context, Poll, Wake, Waker};
use std::thread::{self, Thread};
use std::time::Duration;
use stilefray::{Flash, NotDone, Service, Store, StoreRefusal, Success};

/// The executor's thread, which a waker wakes.
struct Sleeper(Thread);

impl Wake for Sleeper {
    fn wake(self: Arc<Self>) {
        self.0.unpark();
    }
}

/// The executor: it polls one future, and sleeps whenever that is pending.
fn block_on<T>(future: impl Future<Output = T>) -> T {
    let waker = Waker::from(Arc::new(Sleeper(thread::current())));
    let mut context = Context::from_waker(&waker);
    let mut future = pin!(future);
    loop {
        if let Poll::Ready(answer) = future.as_mut().poll(&mut context) {
            return answer;
        }
        thread::park();
    }
}

/// What the flash and its interrupt handler share.
#[derive(Default)]
struct Line {
    busy: bool,
    waker: Option<Waker>,
}

/// Stands for the chip: 4 regions of 1,024 bytes.
struct Chip {
    regions: [[u8; 1024]; 4],
    begun: Option<Service>,
    line: Arc<Mutex<Line>>,
}

impl Chip {
    fn line(&self) -> MutexGuard<'_, Line> {
        self.line.lock().expect("nothing panics while it holds the lock")
    }

    /// Begins a service, or says whether it is over. One that was given up is waited for, and then the new one is begun.
    fn over(&mut self, service: Service) -> Result<(), NotDone<Infallible>> {
        if self.line().busy {
            return Err(NotDone::NotReady);
        }
        if self.begun.take() == Some(service) {
            return Ok(());
        }
        self.begun = Some(service);
        self.line().busy = true;
        let line = Arc::clone(&self.line);
        thread::spawn(move || {
            thread::sleep(Duration::from_millis(1));
            interrupt(&line);
        });
        Err(NotDone::NotReady)
    }
}

/// The interrupt handler: the service is over, and whoever waits for it is woken.
fn interrupt(line: &Mutex<Line>) {
    let waker = line.lock().ok().and_then(|mut line| {
        line.busy = false;
        line.waker.take()
    });
    waker.into_iter().for_each(Waker::wake);
}

impl Flash for Chip {
    type Error = Infallible; // memory does not fail

    fn read_region(&mut self, region: usize, buffer: &mut [u8]) -> Result<(), NotDone<Infallible>> {
        self.over(Service::Read { region })?;
        buffer.copy_from_slice(&self.regions[region]);
        Ok(())
    }

    fn write(&mut self, place: usize, bytes: &[u8]) -> Result<(), NotDone<Infallible>> {
        self.over(Service::Write { place, length: bytes.len() })?;
        for (old, new) in self.regions[place / 1024][place % 1024..].iter_mut().zip(bytes) {
            *old &= new;
        }
        Ok(())
    }

    fn erase_region(&mut self, region: usize) -> Result<(), NotDone<Infallible>> {
        self.over(Service::Erase { region })?;
        self.regions[region] = [255; 1024];
        Ok(())
    }

    /// The interrupt may have come since the service said NotReady: then nobody else would wake the waker.
    fn wake_when_ready(&mut self, waker: &Waker) {
        let mut line = self.line();
        if line.busy {
            line.waker = Some(waker.clone());
        } else {
            waker.wake_by_ref();
        }
    }
}

async fn correct(store: &mut Store<'_, Chip>) -> Result<(), StoreRefusal<Chip>> {
    assert_eq!(store.initialise_async(1000).await?, Success::Written);
    store.append_key_async(101, b"R1.1 G1 B0.9").await?;
    let mut buffer = [0u8; 64];
    let length = store.get_key_async(101, &mut buffer).await?;
    println!("{length} bytes: {}", String::from_utf8_lossy(&buffer[..length]));
    Ok(())
}

fn main() -> Result<(), StoreRefusal<Chip>> {
    let chip = Chip { regions: [[0; 1024]; 4], begun: None, line: Arc::default() };
    let mut region_buffer = [0u8; 1024];
    let mut store = Store::new(chip, &mut region_buffer, 4).with_limit(1000);
    block_on(correct(&mut store))
}
