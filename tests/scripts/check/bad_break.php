<?php

break;