//! The filter and its calls.
use crate::compasses::COUNTS_LENGTH;
use crate::exported;
use crate::places::filter;
use crate::refusal::checked;
use crate::runs::{matrix, vector};
use crate::{
    Alphas, CompassesAnswer, Refusal, State, COMPASSES_LENGTH, DIRECTION_LENGTH, FILTER_LENGTH,
    ONE_ALPHA_LENGTH, POSITION_LENGTH, PROPAGATE_LENGTH, READING_LENGTH, SCALAR_LENGTH,
    START_LENGTH, STATES, STATE_LENGTH, UPDATE_LENGTH, VELOCITY_LENGTH,
};

/// A filter: its 480 numbers, as [`places::filter`](crate::places::filter) has them.
///
/// Any numbers may stand in it: a call refuses those that are not finite. A refused call leaves the filter as it was.
///
/// Each call takes an array of its length, which the named inputs give by `numbers()`. An array of another length
/// does not compile:
///
/// ```
/// # use drifters_port::{Filter, Refusal};
/// fn fix(filter: &mut Filter) -> Result<f64, Refusal> {
///     filter.update_position(&[0.0; 12])
/// }
/// ```
///
/// ```compile_fail,E0308
/// # use drifters_port::{Filter, Refusal};
/// fn fix(filter: &mut Filter) -> Result<f64, Refusal> {
///     filter.update_position(&[0.0; 11])
/// }
/// ```
///
/// The slice form of a call takes any length, and refuses a wrong one by [`Refusal::Length`].
///
/// An update gives its normalised innovation squared (NIS). Where the filter is consistent it is about 3 on average
/// for a position, a velocity and a general update that measures three numbers, about 2 for a direction, and about 1
/// for an update by one number. That of a direction which was chosen among several is smaller.
#[derive(Clone, Debug, PartialEq)]
pub struct Filter(pub [f64; FILTER_LENGTH]);

/// The calls.
impl Filter {
    /// A filter for a state, a covariance and gravity: [`Start`](crate::Start). Each alpha is 0.5. The original's
    /// `new`.
    ///
    /// ```
    /// use drifters_port::{Deviations, Filter, Start, State};
    ///
    /// let state = State { velocity: [3.0, 0.0, 0.0], ..State::default() };
    /// let sigma = Deviations { attitude: [0.05; 3], velocity: [0.1; 3], ..Deviations::default() }.sigma(&state);
    /// let filter = Filter::start(&Start { state, sigma, gravity: [0.0, 0.0, 9.81] }.numbers())?;
    /// assert_eq!(filter.velocity(), [3.0, 0.0, 0.0]);
    /// # Ok::<(), drifters_port::Refusal>(())
    /// ```
    pub fn start(numbers: &[f64; START_LENGTH]) -> Result<Filter, Refusal> {
        Filter::start_slice(numbers)
    }

    /// [`start`](Filter::start) from a slice of 477 numbers.
    pub fn start_slice(numbers: &[f64]) -> Result<Filter, Refusal> {
        let mut filter = Filter([0.0; FILTER_LENGTH]);
        checked(exported::start(&mut filter.0, numbers))?;
        Ok(filter)
    }

    /// A filter with one alpha, as versions up to 0.6.0 have it, changed over with no new start: each alpha is the one,
    /// the other numbers stay. As long as nobody else writes an alpha, every later call answers as version 0.6.0 does
    /// on the filter with one alpha, to the last bit.
    ///
    /// ```
    /// use drifters_port::{diagonal, Alphas, Filter, Refusal, Start, State, ONE_ALPHA_LENGTH};
    ///
    /// let start = Start { state: State::default(), sigma: diagonal([0.01; 21]), gravity: [0.0, 0.0, 9.81] };
    /// // as it comes from a mount with version 0.6.0: 478 numbers
    /// let one_alpha: [f64; ONE_ALPHA_LENGTH] = Filter::start(&start.numbers())?.downgrade()?;
    /// let mut filter = Filter::upgrade(&one_alpha)?;
    /// assert_eq!(filter.alphas(), Alphas::all(0.5));
    /// assert_eq!(filter.downgrade(), Ok(one_alpha));
    /// // with an alpha of its own for the compass there is no way back
    /// filter.set_alphas(Alphas { direction: 0.1, ..filter.alphas() });
    /// assert_eq!(filter.downgrade(), Err(Refusal::Unequal));
    /// # Ok::<(), drifters_port::Refusal>(())
    /// ```
    ///
    /// A number that is not finite is refused by [`Refusal::Blank`].
    pub fn upgrade(one_alpha: &[f64; ONE_ALPHA_LENGTH]) -> Result<Filter, Refusal> {
        Filter::upgrade_slice(one_alpha)
    }

    /// [`upgrade`](Filter::upgrade) from a slice of 478 numbers.
    pub fn upgrade_slice(one_alpha: &[f64]) -> Result<Filter, Refusal> {
        let mut filter = Filter([0.0; FILTER_LENGTH]);
        checked(exported::upgrade(one_alpha, &mut filter.0))?;
        Ok(filter)
    }

    /// The numbers of a filter with one alpha, where the three are equal: [`upgrade`](Filter::upgrade) gives this filter
    /// for them.
    ///
    /// A number that is not finite is refused by [`Refusal::Blank`], and then alphas that have not all the same bits by
    /// [`Refusal::Unequal`]: +0 and -0 are unequal.
    ///
    /// ```
    /// use drifters_port::{diagonal, Alphas, Filter, Refusal, Start, State};
    ///
    /// let start = Start { state: State::default(), sigma: diagonal([0.01; 21]), gravity: [0.0, 0.0, 9.81] };
    /// let mut filter = Filter::start(&start.numbers())?;
    /// filter.set_alphas(Alphas { velocity: -0.0, ..Alphas::all(0.0) });
    /// assert_eq!(filter.downgrade(), Err(Refusal::Unequal));
    /// filter.set_alphas(Alphas::all(0.0));
    /// assert_eq!(filter.downgrade()?[477], 0.0);
    /// # Ok::<(), drifters_port::Refusal>(())
    /// ```
    pub fn downgrade(&self) -> Result<[f64; ONE_ALPHA_LENGTH], Refusal> {
        let mut one_alpha = [0.0; ONE_ALPHA_LENGTH];
        self.downgrade_slice(&mut one_alpha)?;
        Ok(one_alpha)
    }

    /// [`downgrade`](Filter::downgrade) to a slice of 478 numbers.
    pub fn downgrade_slice(&self, one_alpha: &mut [f64]) -> Result<(), Refusal> {
        checked(exported::downgrade(&self.0, one_alpha))
    }

    /// Carries the filter over a sample of the inertial sensor: [`Imu`](crate::Imu) and
    /// [`Densities`](crate::Densities).
    ///
    /// ```
    /// use drifters_port::{diagonal, Densities, Filter, Imu, Start, State};
    ///
    /// let start = Start { state: State::default(), sigma: diagonal([0.01; 21]), gravity: [0.0, 0.0, 9.81] };
    /// let mut filter = Filter::start(&start.numbers())?;
    /// let densities = Densities { gyro: [1e-6; 3], accel: [1e-4; 3], ..Densities::default() };
    /// // level, at 1 m/s^2 to the north for 10 ms
    /// let imu = Imu { omega: [0.0; 3], accel: [1.0, 0.0, -9.81], dt: 0.01 };
    /// filter.propagate(&imu.numbers(&densities))?;
    /// assert!((filter.velocity()[0] - 0.01).abs() < 1e-12);
    /// # Ok::<(), drifters_port::Refusal>(())
    /// ```
    pub fn propagate(&mut self, numbers: &[f64; PROPAGATE_LENGTH]) -> Result<(), Refusal> {
        self.propagate_slice(numbers)
    }

    /// [`propagate`](Filter::propagate) by a slice of 25 numbers.
    pub fn propagate_slice(&mut self, numbers: &[f64]) -> Result<(), Refusal> {
        checked(exported::propagate(&mut self.0, numbers))
    }

    /// Updates the filter by a GNSS antenna position: [`Fix`](crate::Fix). Gives the NIS.
    ///
    /// ```
    /// use drifters_port::{diagonal, Filter, Fix, Start, State};
    ///
    /// let start = Start { state: State::default(), sigma: diagonal([0.01; 21]), gravity: [0.0, 0.0, 9.81] };
    /// let mut filter = Filter::start(&start.numbers())?;
    /// let nis = filter.update_position(&Fix { antenna: [0.1, 0.0, 0.0], noise: diagonal([0.01; 3]) }.numbers())?;
    /// assert!(nis > 0.0 && filter.position()[0] > 0.0);
    /// # Ok::<(), drifters_port::Refusal>(())
    /// ```
    pub fn update_position(&mut self, numbers: &[f64; POSITION_LENGTH]) -> Result<f64, Refusal> {
        self.update_position_slice(numbers)
    }

    /// [`update_position`](Filter::update_position) by a slice of 12 numbers.
    pub fn update_position_slice(&mut self, numbers: &[f64]) -> Result<f64, Refusal> {
        self.updated(exported::update_position, numbers)
    }

    /// Updates the filter by a GNSS antenna velocity: [`VelocityFix`](crate::VelocityFix). Gives the NIS.
    ///
    /// ```
    /// use drifters_port::{diagonal, Filter, Start, State, VelocityFix};
    ///
    /// let start = Start { state: State::default(), sigma: diagonal([0.01; 21]), gravity: [0.0, 0.0, 9.81] };
    /// let mut filter = Filter::start(&start.numbers())?;
    /// let (reading, bias) = ([0.01, 0.0, 0.3], filter.nav_state()?.gyro_bias);
    /// let omega = core::array::from_fn(|i| reading[i] - bias[i]);
    /// let fix = VelocityFix { antenna: [0.1, 0.0, 0.0], omega, noise: diagonal([0.01; 3]) };
    /// filter.update_velocity(&fix.numbers())?;
    /// assert!(filter.velocity()[0] > 0.0);
    /// # Ok::<(), drifters_port::Refusal>(())
    /// ```
    pub fn update_velocity(&mut self, numbers: &[f64; VELOCITY_LENGTH]) -> Result<f64, Refusal> {
        self.update_velocity_slice(numbers)
    }

    /// [`update_velocity`](Filter::update_velocity) by a slice of 15 numbers.
    pub fn update_velocity_slice(&mut self, numbers: &[f64]) -> Result<f64, Refusal> {
        self.updated(exported::update_velocity, numbers)
    }

    /// Updates the filter by a magnetometer direction: [`Direction`](crate::Direction). Gives the NIS.
    ///
    /// ```
    /// use drifters_port::{diagonal, Direction, Filter, Start, State};
    ///
    /// let start = Start { state: State::default(), sigma: diagonal([0.01; 21]), gravity: [0.0, 0.0, 9.81] };
    /// let mut filter = Filter::start(&start.numbers())?;
    /// // the field seen where it is expected; the two need not have one length
    /// let field = Direction { measured: [0.4, 0.0, 0.8], north: [20.0, 0.0, 40.0], noise: diagonal([1e-4; 3]) };
    /// assert!(filter.update_direction(&field.numbers())? < 1e-12);
    /// # Ok::<(), drifters_port::Refusal>(())
    /// ```
    ///
    /// A measured or a north of norm 0, such as the zeros of a compass that is switched off, is refused by
    /// [`Refusal::Null`]. The square of each of its numbers is then 0, as that of every number is whose size is at most
    /// about 1.57e-162. This is tested after [`Refusal::Blank`] and before [`Refusal::Pivot`].
    ///
    /// ```
    /// # use drifters_port::{diagonal, Direction, Filter, Refusal, Start, State};
    /// # let start = Start { state: State::default(), sigma: diagonal([0.01; 21]), gravity: [0.0, 0.0, 9.81] };
    /// # let mut filter = Filter::start(&start.numbers())?;
    /// let field = Direction { measured: [0.0; 3], north: [20.0, 0.0, 40.0], noise: diagonal([1e-4; 3]) };
    /// assert_eq!(filter.update_direction(&field.numbers()), Err(Refusal::Null));
    /// # Ok::<(), drifters_port::Refusal>(())
    /// ```
    pub fn update_direction(&mut self, numbers: &[f64; DIRECTION_LENGTH]) -> Result<f64, Refusal> {
        self.update_direction_slice(numbers)
    }

    /// [`update_direction`](Filter::update_direction) by a slice of 15 numbers.
    pub fn update_direction_slice(&mut self, numbers: &[f64]) -> Result<f64, Refusal> {
        self.updated(exported::update_direction, numbers)
    }

    /// Updates the filter by any output matrix and innovation: [`General`](crate::General). Gives the NIS.
    ///
    /// ```
    /// use drifters_port::places::coordinate;
    /// use drifters_port::{diagonal, Filter, General, Start, State};
    ///
    /// let start = Start { state: State::default(), sigma: diagonal([0.01; 21]), gravity: [0.0, 0.0, 9.81] };
    /// let mut filter = Filter::start(&start.numbers())?;
    /// // the velocity itself, at rest at the origin: predicted 0, measured 0.1 m/s to the north
    /// let mut output = [[0.0; 21]; 3];
    /// for (i, row) in output.iter_mut().enumerate() {
    ///     row[coordinate::VELOCITY + i] = -1.0;
    /// }
    /// let seen = General { output, innovation: [-0.1, 0.0, 0.0], noise: diagonal([0.01; 3]) };
    /// filter.update(&seen.numbers())?;
    /// assert!(filter.velocity()[0] > 0.0);
    /// # Ok::<(), drifters_port::Refusal>(())
    /// ```
    pub fn update(&mut self, numbers: &[f64; UPDATE_LENGTH]) -> Result<f64, Refusal> {
        self.update_slice(numbers)
    }

    /// [`update`](Filter::update) by a slice of 75 numbers.
    pub fn update_slice(&mut self, numbers: &[f64]) -> Result<f64, Refusal> {
        self.updated(exported::update, numbers)
    }

    /// Updates the filter by one measured number: [`Scalar`](crate::Scalar). Gives the NIS.
    ///
    /// ```
    /// use drifters_port::places::coordinate;
    /// use drifters_port::{diagonal, Filter, Scalar, Start, State};
    ///
    /// let start = Start { state: State::default(), sigma: diagonal([0.01; 21]), gravity: [0.0, 0.0, 9.81] };
    /// let mut filter = Filter::start(&start.numbers())?;
    /// // the height, at the origin: predicted down 0, measured 0.1 m above, which is down -0.1
    /// let mut output = [0.0; 21];
    /// output[coordinate::POSITION + 2] = -1.0;
    /// let gauge = Scalar { output, innovation: 0.0 - -0.1, variance: 0.01 };
    /// filter.update_scalar(&gauge.numbers())?;
    /// assert!(filter.position()[2] < 0.0);
    /// # Ok::<(), drifters_port::Refusal>(())
    /// ```
    ///
    /// Away from the origin the row has numbers at the attitude's coordinates too: docs/MANUAL.md has it.
    pub fn update_scalar(&mut self, numbers: &[f64; SCALAR_LENGTH]) -> Result<f64, Refusal> {
        self.update_scalar_slice(numbers)
    }

    /// [`update_scalar`](Filter::update_scalar) by a slice of 23 numbers.
    pub fn update_scalar_slice(&mut self, numbers: &[f64]) -> Result<f64, Refusal> {
        self.updated(exported::update_scalar, numbers)
    }

    /// Updates the filter by the best of several compasses: 1 to 8 readings, each as
    /// [`Direction::measured`](crate::Direction::measured), one north and noise for all
    /// ([`Compasses`](crate::Compasses)), and a budget of 0 to 8. Tells which reading was applied, and how many were
    /// tried.
    ///
    /// Readings are tried in order, each as an update by direction on the same filter. The one with the smallest NIS,
    /// the earliest among equals, is applied: the filter and the NIS are then those of
    /// [`update_direction`](Filter::update_direction) by it, to the last bit. A reading that would be refused counts
    /// as tried and is passed over. Where none was accepted the filter stays.
    ///
    /// How many are tried hangs on the budget and the number of readings alone. It is at most either, and at least
    /// half the smaller; in this version it is the smaller. Readings after these are not looked at.
    ///
    /// ```
    /// use drifters_port::{diagonal, Compasses, CompassesAnswer, Filter, Start, State};
    ///
    /// let start = Start { state: State::default(), sigma: diagonal([0.01; 21]), gravity: [0.0, 0.0, 9.81] };
    /// let mut filter = Filter::start(&start.numbers())?;
    /// let compasses = Compasses { north: [0.4, 0.0, 0.8], noise: diagonal([1e-4; 3]) };
    /// // switched off; beside a magnet; as it should be
    /// let readings = [[0.0; 3], [0.3, 0.4, 0.8], [0.4, 0.01, 0.8]];
    /// let answer = filter.update_compasses(&readings, &compasses.numbers(), 8)?;
    /// assert!(matches!(answer, CompassesAnswer::Chosen { index: 2, tried: 3, .. }));
    /// // the first alone
    /// let answer = filter.update_compasses(&readings, &compasses.numbers(), 1)?;
    /// assert_eq!(answer, CompassesAnswer::None { tried: 1 });
    /// # Ok::<(), drifters_port::Refusal>(())
    /// ```
    ///
    /// Refused are a number of readings or a budget out of range, by [`Refusal::Length`], and then a number of the
    /// filter, of north or of noise that is not finite, by [`Refusal::Blank`]. The choice favours what the filter
    /// believes: docs/MANUAL.md says what follows.
    pub fn update_compasses(
        &mut self,
        readings: &[[f64; READING_LENGTH]],
        north_noise: &[f64; COMPASSES_LENGTH],
        budget: usize,
    ) -> Result<CompassesAnswer, Refusal> {
        self.update_compasses_slice(readings.as_flattened(), north_noise, budget)
    }

    /// [`update_compasses`](Filter::update_compasses) by slices of 3 numbers for each reading, and of 12.
    pub fn update_compasses_slice(
        &mut self,
        readings: &[f64],
        north_noise: &[f64],
        budget: usize,
    ) -> Result<CompassesAnswer, Refusal> {
        let (mut counts, mut nis) = ([0; COUNTS_LENGTH], [0.0]);
        checked(exported::update_compasses(
            &mut self.0,
            readings,
            north_noise,
            budget,
            &mut counts,
            &mut nis,
        ))?;
        Ok(CompassesAnswer::of(&counts, nis[0]))
    }

    /// The estimate. Biases, lever arm and calibration come from here: the filter's gamma, delta and E are not they.
    ///
    /// ```
    /// use drifters_port::{diagonal, Filter, Start, State};
    ///
    /// let state = State { lever: [0.5, 0.0, -1.0], ..State::default() };
    /// let filter = Filter::start(&Start { state, sigma: diagonal([0.01; 21]), gravity: [0.0, 0.0, 9.81] }.numbers())?;
    /// assert_eq!(filter.nav_state()?, state);
    /// # Ok::<(), drifters_port::Refusal>(())
    /// ```
    pub fn nav_state(&self) -> Result<State, Refusal> {
        let mut numbers = [0.0; STATE_LENGTH];
        self.nav_state_slice(&mut numbers)?;
        Ok(State::from_numbers(&numbers))
    }

    /// Writes the estimate to a slice of 33 numbers, as [`places::state`](crate::places::state) has them.
    pub fn nav_state_slice(&self, state: &mut [f64]) -> Result<(), Refusal> {
        checked(exported::nav_state(&self.0, state))
    }

    /// An update by an exported function.
    fn updated(
        &mut self,
        by: fn(&mut [f64], &[f64], &mut [f64]) -> u32,
        numbers: &[f64],
    ) -> Result<f64, Refusal> {
        let mut nis = [0.0];
        checked(by(&mut self.0, numbers, &mut nis))?;
        Ok(nis[0])
    }
}

/// The parts that can be read as they stand. The others are [`nav_state`](Filter::nav_state)'s.
impl Filter {
    /// The attitude's estimate R: rotates a body vector into the reference frame.
    pub fn attitude(&self) -> [[f64; 3]; 3] {
        matrix(&self.0, filter::A)
    }

    /// The velocity's estimate, m/s, reference frame.
    pub fn velocity(&self) -> [f64; 3] {
        vector(&self.0, filter::VELOCITY)
    }

    /// The position's estimate, m, reference frame.
    pub fn position(&self) -> [f64; 3] {
        vector(&self.0, filter::POSITION)
    }

    /// The covariance of the 21 error coordinates, row by row.
    pub fn sigma(&self) -> &[f64; STATES * STATES] {
        self.0[filter::SIGMA..filter::GRAVITY]
            .try_into()
            .expect("sigma has 441 numbers")
    }

    /// An entry of the covariance. [`places::coordinate`](crate::places::coordinate) has the order of its rows and
    /// columns.
    ///
    /// # Panics
    ///
    /// Where the row or the column is not below 21.
    pub fn sigma_at(&self, row: usize, column: usize) -> f64 {
        assert!(
            row < STATES && column < STATES,
            "sigma has 21 rows and columns: no entry ({row}, {column})"
        );
        self.sigma()[row * STATES + column]
    }

    /// Gravity, m/s^2, reference frame.
    pub fn gravity(&self) -> [f64; 3] {
        vector(&self.0, filter::GRAVITY)
    }

    /// The alphas, each 0.5 after a start.
    pub fn alphas(&self) -> Alphas {
        Alphas {
            position: self.0[filter::POSITION_ALPHA],
            velocity: self.0[filter::VELOCITY_ALPHA],
            direction: self.0[filter::DIRECTION_ALPHA],
        }
    }

    /// Sets the alphas. No call on the filter changes them.
    pub fn set_alphas(&mut self, alphas: Alphas) {
        self.0[filter::POSITION_ALPHA] = alphas.position;
        self.0[filter::VELOCITY_ALPHA] = alphas.velocity;
        self.0[filter::DIRECTION_ALPHA] = alphas.direction;
    }
}
